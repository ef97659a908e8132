#include "damage.h"

#include <string.h>

/* A value that is on an edge of some range more often than not. */
static uint8_t edge_value(const struct session *s, struct chance *c)
{
    static const uint8_t edges[] = {0, 1, 2, 3, 4, 5, 6, 7, 8, 9, 10, 11, 12, 31, 32, 33, 127, 128, 254, 255};
    switch (chance_below(c, 8)) {
    case 0:
        return (uint8_t)(s->made.places - chance_below(c, 2));
    case 1:
        return (uint8_t)(s->made.tasks + chance_below(c, 2));
    case 2:
        return (uint8_t)(s->made.finishes + chance_below(c, 2));
    case 3:
        return chance_byte(c);
    default:
        return edges[chance_below(c, sizeof edges)];
    }
}

/* A number of 1 to made; past it now and then, and into the whole range where nothing is made. */
static unsigned some_number(struct chance *c, unsigned made, unsigned most)
{
    if (made == 0 || made > most || chance_once_in(c, 16))
        return chance_between(c, 1, most);
    return chance_between(c, 1, made);
}

/* A full slot where there is one: a damaged message is met again when it is delivered. */
static unsigned some_slot(const struct session *s, struct chance *c)
{
    unsigned n = chance_below(c, SLOTS);
    for (unsigned tries = 0; tries < SLOTS && s->slot[n].tag == EMPTY; tries++)
        n = (n + 1) % SLOTS;
    return n;
}

/* A byte of some table kind, each kind as likely as another although the tables differ much in size. */
static uint8_t *some_byte(struct session *s, struct chance *c)
{
    unsigned f = some_number(c, s->made.finishes, MAX_FINISHES);
    unsigned place = chance_below(c, MAX_PLACES), column = chance_below(c, 8);
    switch (chance_below(c, 8)) {
    case 0:
        return (uint8_t *)&s->made + chance_below(c, 5);
    case 1:
    case 2:
        return (uint8_t *)&s->task[some_number(c, s->made.tasks, MAX_TASKS)] + column;
    case 3:
        return (uint8_t *)&s->finish[f] + column;
    case 4:
        return (uint8_t *)&s->book[f] + column;
    case 5:
        return (uint8_t *)&s->book[f] + chance_below(c, sizeof s->book[f]);
    case 6:
        return (uint8_t *)&s->local[f][place] + chance_below(c, sizeof s->local[f][place]);
    default:
        return (uint8_t *)&s->slot[some_slot(s, c)] + chance_below(c, sizeof s->slot[0]);
    }
}

void damage_some(uint8_t *tables, struct chance *c)
{
    struct session s;
    second_load(&s, tables);
    unsigned changes = chance_between(c, 1, 5);
    for (unsigned n = 0; n < changes; n++) {
        struct session tried = s;
        uint8_t value = edge_value(&s, c);
        *some_byte(&tried, c) = value;
        /* Most of what is unsound is dropped again: every refusal after 8 is met on sound tables alone. */
        if (second_is_sound(&tried) || chance_once_in(c, 8))
            s = tried;
    }
    second_store(&s, tables);
}

/* A value on or next to an edge of the ranges that a tested field may have; own is the number of its row. */
static uint8_t range_edge(const struct session *s, unsigned own, struct chance *c)
{
    static const uint8_t fixed[] = {0, 1, LOST, FINISH_LOST, MAX_PLACES, MAX_FINISHES, DROPPED_COUNT};
    switch (chance_below(c, 5)) {
    case 0:
        return (uint8_t)(fixed[chance_below(c, sizeof fixed)] + chance_below(c, 2));
    case 1:
        return (uint8_t)(s->made.places - 1u + chance_below(c, 2));
    case 2:
        return (uint8_t)(s->made.tasks + chance_below(c, 2));
    case 3:
        return (uint8_t)(s->made.finishes + chance_below(c, 2));
    default:
        return (uint8_t)(own - 1u + chance_below(c, 2));
    }
}

/* One finish too many, where its row, which is the first of finish 1's book, would pass as one. */
static void make_33_finishes(struct session *s)
{
    const struct finish looks_sound = {.status = ACTIVE, .main_task = 1};
    s->made.finishes = MAX_FINISHES + 1;
    memcpy(&s->book[1], &looks_sound, sizeof looks_sound);
}

void damage_edge(uint8_t *tables, struct chance *c)
{
    struct session s;
    second_load(&s, tables);
    unsigned t = some_number(c, s.made.tasks, MAX_TASKS), f = some_number(c, s.made.finishes, MAX_FINISHES);
    unsigned column = chance_below(c, 6);
    if (s.made.finishes == MAX_FINISHES && chance_once_in(c, 8))
        make_33_finishes(&s);
    switch (chance_below(c, 6)) {
    case 0:
        *((uint8_t *)&s.made + chance_below(c, 4)) = chance_once_in(c, 2) ? chance_byte(c) : range_edge(&s, 1, c);
        break;
    case 1:
        *((uint8_t *)&s.task[t] + column) = range_edge(&s, t, c);
        break;
    case 2:
        *((uint8_t *)&s.finish[f] + column) = range_edge(&s, f, c);
        break;
    case 3:
        f = chance_between(c, 1, MAX_FINISHES);
        *((uint8_t *)&s.book[f] + chance_below(c, 4)) = range_edge(&s, f, c);
        break;
    default:
        *((uint8_t *)&s.slot[some_slot(&s, c)] + column) = range_edge(&s, s.made.finishes, c);
        break;
    }
    second_store(&s, tables);
}

static void fill(void *bytes, size_t len, struct chance *c)
{
    uint8_t *at = bytes;
    for (; len >= 8; len -= 8, at += 8) {
        uint64_t word = chance_next(c);
        memcpy(at, &word, 8);
    }
    for (; len > 0; len--)
        *at++ = chance_byte(c);
}

void damage_arbitrary(uint8_t *tables, struct chance *c)
{
    fill(tables, TABLES_LEN, c);
}

/* Small mostly, so that cells and columns are often 0 or 1; at the far edge now and then. */
static uint8_t some_count(struct chance *c)
{
    unsigned n = chance_below(c, 32);
    return (uint8_t)(n < 16 ? 0 : n < 28 ? 1 + n % 3 : n < 30 ? 255 : 254);
}

static void fill_counts(uint8_t *counts, size_t len, bool sparse, struct chance *c)
{
    for (size_t n = 0; n < len; n++)
        counts[n] = sparse && !chance_once_in(c, 24) ? 0 : some_count(c);
}

static void make_task(struct session *s, unsigned t, struct chance *c)
{
    struct task *task = &s->task[t];
    task->from = (uint8_t)chance_below(c, s->made.places);
    task->at = (uint8_t)chance_below(c, s->made.places);
    task->finish = (uint8_t)chance_between(c, 1, s->made.finishes);
    task->status = (uint8_t)(chance_once_in(c, 3) ? RUNNING : chance_between(c, WAITS_FOR_PUBLISH, LOST));
    task->sent = (uint8_t)chance_below(c, 2);
    task->spawner = (uint8_t)(chance_once_in(c, 4) ? 0 : chance_below(c, t));
}

static void make_finish(struct session *s, unsigned f, struct chance *c)
{
    struct finish *finish = &s->finish[f];
    finish->home = (uint8_t)chance_below(c, s->made.places);
    finish->main_task = (uint8_t)chance_between(c, 1, s->made.tasks);
    finish->opener = (uint8_t)chance_below(c, finish->main_task);
    finish->parent = (uint8_t)chance_below(c, f);
    finish->status = (uint8_t)chance_between(c, ACTIVE, FINISH_LOST);
    finish->published = (uint8_t)chance_below(c, 2);
}

static void make_book(struct session *s, unsigned f, struct chance *c)
{
    struct book *book = &s->book[f];
    bool sparse = chance_once_in(c, 2);
    book->present = f == s->made.finishes || (f < s->made.finishes && chance_once_in(c, 2));
    /* A low number as often as not: children of one book are what adopt looks for. */
    book->parent = (uint8_t)chance_below(c, f > 3 && chance_once_in(c, 2) ? 3 : f);
    book->adopt_due = chance_once_in(c, 4);
    book->adopted = book->parent != 0 && chance_once_in(c, 2);
    if (sparse)
        memset(book->ghosts, 0, sizeof book->ghosts);
    fill_counts(&book->live[0][0], sizeof book->live, sparse, c);
    fill_counts(&book->sent[0][0], sizeof book->sent, false, c);
}

/* Only the fields that a tag uses are put in range. Where nothing is made there is nothing to name, so no message. */
static void make_message(struct session *s, struct message *m, struct chance *c)
{
    m->tag = EMPTY;
    if (s->made.finishes == 0)
        return;
    m->tag = (uint8_t)chance_below(c, DROPPED_COUNT + 1);
    m->finish = (uint8_t)chance_between(c, 1, s->made.finishes);
    const struct used used = fields_used(m->tag);
    if (used.task)
        m->task = (uint8_t)chance_between(c, 1, s->made.tasks);
    if (used.from)
        m->from = (uint8_t)chance_below(c, s->made.places);
    if (used.to)
        m->to = (uint8_t)chance_below(c, s->made.places);
    m->number = m->tag == GHOST_ENDED     ? (uint8_t)chance_between(c, 1, s->made.finishes)
        : chance_once_in(c, 8) ? m->number
                               : (uint8_t)chance_below(c, 6);
    fill_counts(m->counts, sizeof m->counts, true, c);
}

static void make_made(struct made *made, struct chance *c)
{
    made->places = (uint8_t)chance_between(c, 2, MAX_PLACES);
    made->dead = (uint8_t)(chance_byte(c) & chance_byte(c) & ((1u << made->places) - 1) & ~1u);
    made->tasks = (uint8_t)(chance_once_in(c, 8) ? MAX_TASKS - chance_below(c, 2) : chance_between(c, 1, 12));
    made->finishes = (uint8_t)(chance_once_in(c, 4) ? MAX_FINISHES - chance_below(c, 2) : chance_between(c, 1, 6));
    if (chance_once_in(c, 32))
        made->tasks = made->finishes = 0;
}

void damage_sound(uint8_t *tables, struct chance *c)
{
    struct session s;
    damage_arbitrary(tables, c);
    second_load(&s, tables);
    make_made(&s.made, c);
    for (unsigned t = 1; t <= s.made.tasks; t++)
        make_task(&s, t, c);
    for (unsigned f = 1; f <= s.made.finishes; f++)
        make_finish(&s, f, c);
    for (unsigned f = 1; f <= MAX_FINISHES; f++)
        make_book(&s, f, c);
    for (unsigned f = 1; f <= MAX_FINISHES; f++)
        for (unsigned p = 0; p < MAX_PLACES; p++)
            fill_counts((uint8_t *)&s.local[f][p], offsetof(struct local_book, deny), false, c);
    bool full = chance_once_in(c, 4);
    for (unsigned n = 0; n < SLOTS; n++) {
        make_message(&s, &s.slot[n], c);
        if (!full && !chance_once_in(c, 3))
            s.slot[n].tag = EMPTY;
        else if (full && s.slot[n].tag == EMPTY && s.made.finishes != 0)
            s.slot[n].tag = RELEASE;
    }
    second_store(&s, tables);
}

void damage_still(uint8_t *tables, struct chance *c)
{
    struct session s;
    damage_sound(tables, c);
    second_load(&s, tables);
    memset(s.slot, 0, sizeof s.slot);
    for (unsigned f = 1; f <= MAX_FINISHES; f++) {
        struct book *book = &s.book[f];
        memset(book->live, 0, sizeof book->live);
        book->present = f <= 2 && chance_once_in(c, 2);
        book->adopt_due = chance_once_in(c, 16);
        if (chance_once_in(c, 2))
            book->live[chance_below(c, MAX_PLACES)][chance_below(c, MAX_PLACES)] = some_count(c);
    }
    if (chance_once_in(c, 2))
        s.book[chance_between(c, 1, MAX_FINISHES)].present = edge_value(&s, c);
    if (chance_once_in(c, 4))
        *((uint8_t *)&s.made + chance_below(c, 4)) = edge_value(&s, c);
    second_store(&s, tables);
}

/* Messages first: they are where most of the rules are. */
static const struct weights on_other_tables = {.of = {[PICK_SPAWN] = 10,
                                                      [PICK_OPEN] = 4,
                                                      [PICK_END] = 10,
                                                      [PICK_DELIVER] = 30,
                                                      [PICK_KILL] = 3,
                                                      [PICK_ADOPT] = 8,
                                                      [PICK_CANCEL] = 6,
                                                      [PICK_ASK] = 6,
                                                      [PICK_TOO_SOON] = 4,
                                                      [PICK_AGAIN] = 2,
                                                      [PICK_STRAY] = 8,
                                                      [PICK_GARBAGE] = 1}};

/* What a pick looks at is in range only where the tables are sound. */
static void pick_on_any(const struct session *s, struct chance *c, uint8_t record[RECORD_LEN])
{
    if (second_is_sound(s) && s->made.tasks != 0)
        picks_next(s, c, &on_other_tables, record);
    else
        picks_one(s, c, &on_other_tables, chance_once_in(c, 8) ? PICK_GARBAGE : PICK_STRAY, record);
}

struct fault damage_run(const uint8_t *tables, unsigned most, struct pair *p, struct chance *c,
                        struct schedule *schedule, struct checks checks)
{
    struct fault f = {.kind = FAULT_NONE};
    uint8_t record[RECORD_LEN];
    unsigned records = chance_between(c, 1, most);
    schedule->count = 0;
    pair_start(p, tables);
    for (unsigned n = 0; n < records && f.kind == FAULT_NONE; n++) {
        pick_on_any(&p->now, c, record);
        f = schedule_take(schedule, p, record, checks);
    }
    return f;
}
