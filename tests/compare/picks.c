#include "picks.h"

#include <string.h>

/* A number from among those that pass a test, each as likely as another: the n-th that passes takes over once in n. */
struct draw {
    unsigned seen, number;
};

static void draw_from(struct draw *d, struct chance *c, unsigned number)
{
    if (chance_once_in(c, ++d->seen))
        d->number = number;
}

static void write_record(uint8_t record[RECORD_LEN], unsigned kind, unsigned a, unsigned b, unsigned c)
{
    const uint8_t bytes[RECORD_LEN] = {(uint8_t)kind, (uint8_t)a, (uint8_t)b, (uint8_t)c};
    memcpy(record, bytes, RECORD_LEN);
}

static struct draw draw_running_task(const struct session *s, struct chance *c, bool only_main)
{
    struct draw d = {0, 0};
    for (unsigned t = 1; t <= s->made.tasks; t++)
        if (s->task[t].status == RUNNING && (!only_main || is_main(&s->task[t])))
            draw_from(&d, c, t);
    return d;
}

/* Spawns to live places mostly, and to dead ones now and then. */
static bool pick_spawn(const struct session *s, struct chance *c, uint8_t record[RECORD_LEN])
{
    struct draw task = draw_running_task(s, c, false), place = {0, 0};
    bool dead_too = chance_once_in(c, 8);
    for (unsigned p = 0; p < s->made.places; p++)
        if (p != s->task[task.number].at && (dead_too || !is_dead(s, p)))
            draw_from(&place, c, p);
    write_record(record, SPAWN, task.number, place.number, 0);
    return task.seen != 0 && place.seen != 0;
}

static bool pick_of_running(const struct session *s, struct chance *c, unsigned kind, bool only_main,
                            uint8_t record[RECORD_LEN])
{
    struct draw task = draw_running_task(s, c, only_main);
    write_record(record, kind, task.number, 0, 0);
    return task.seen != 0;
}

static bool pick_deliver(const struct session *s, struct chance *c, bool held, unsigned lazy_tags,
                         uint8_t record[RECORD_LEN])
{
    struct draw slot = {0, 0};
    unsigned left_alone = chance_once_in(c, 24) ? 0 : lazy_tags;
    for (unsigned n = 0; n < SLOTS; n++) {
        const struct message *m = &s->slot[n];
        if (m->tag != EMPTY && !has_bit(left_alone, m->tag) && second_is_held(s, m) == held)
            draw_from(&slot, c, n);
    }
    write_record(record, DELIVER, slot.number, 0, 0);
    return slot.seen != 0;
}

static bool pick_kill(const struct session *s, struct chance *c, uint8_t record[RECORD_LEN])
{
    struct draw place = {0, 0};
    for (unsigned p = 1; p < s->made.places; p++)
        if (!is_dead(s, p))
            draw_from(&place, c, p);
    write_record(record, KILL, place.number, 0, 0);
    return place.seen != 0;
}

static bool pick_adopt(const struct session *s, struct chance *c, uint8_t record[RECORD_LEN])
{
    struct draw finish = {0, 0};
    for (unsigned f = 1; f <= s->made.finishes; f++)
        if (is_present(&s->book[f]) && is_set(s->book[f].adopt_due))
            draw_from(&finish, c, f);
    write_record(record, ADOPT, finish.number, 0, 0);
    return finish.seen != 0;
}

static bool would_close(const struct book *book, unsigned place)
{
    struct book after = *book;
    second_clear_column(&after, place);
    return second_book_is_spent(&after);
}

static bool pick_cancel(const struct session *s, struct chance *c, bool due, bool keeps_books,
                        uint8_t record[RECORD_LEN])
{
    struct draw pair = {0, 0};
    for (unsigned f = 1; f <= s->made.finishes; f++)
        for (unsigned v = 1; v < s->made.places; v++) {
            const struct book *book = &s->book[f];
            if (is_present(book) && is_set(book->adopt_due) == due && is_dead(s, v) && !second_column_is_zero(book, v)
                && !(keeps_books && would_close(book, v)))
                draw_from(&pair, c, f * MAX_PLACES + v);
        }
    write_record(record, CANCEL, pair.number / MAX_PLACES, pair.number % MAX_PLACES, 0);
    return pair.seen != 0;
}

/* Positive cells of a dead sender and a live receiver, asked or not. */
static void draw_cells(const struct session *s, struct chance *c, unsigned f, bool asked, struct draw *cell)
{
    const struct book *book = &s->book[f];
    for (unsigned i = 1; i < s->made.places; i++)
        for (unsigned j = 0; j < s->made.places && is_dead(s, i); j++)
            if (!is_dead(s, j) && book->live[i][j] != 0 && was_asked(book, i, j) == asked)
                draw_from(cell, c, (f * MAX_PLACES + i) * MAX_PLACES + j);
}

static bool pick_ask(const struct session *s, struct chance *c, bool under_repair, bool asked,
                     uint8_t record[RECORD_LEN])
{
    struct draw cell = {0, 0};
    for (unsigned f = 1; f <= s->made.finishes && s->made.dead != 0; f++)
        if (is_present(&s->book[f]) && second_is_under_repair(s, &s->book[f]) == under_repair)
            draw_cells(s, c, f, asked, &cell);
    write_record(record, ASK, cell.number / MAX_PLACES / MAX_PLACES, cell.number / MAX_PLACES % MAX_PLACES,
                 cell.number % MAX_PLACES);
    return cell.seen != 0;
}

/* What waits for a repair. */
static bool pick_too_soon(const struct session *s, struct chance *c, uint8_t record[RECORD_LEN])
{
    switch (chance_below(c, 4)) {
    case 0:
        return pick_ask(s, c, true, false, record);
    case 1:
        return pick_cancel(s, c, true, false, record);
    default:
        return pick_deliver(s, c, true, 0, record);
    }
}

/* A finish with a book where one is met soon; else any number about the made ones. */
static unsigned stray_finish(const struct session *s, struct chance *c)
{
    unsigned f = 0;
    for (unsigned tries = 0; tries < 6; tries++) {
        f = chance_below(c, s->made.finishes + 2u);
        if (f >= 1 && f <= MAX_FINISHES && is_present(&s->book[f]))
            return f;
    }
    return f;
}

/* As is_dead, for tables whose places may be any number. */
static bool is_dead_place(const struct session *s, unsigned place)
{
    return place < MAX_PLACES && is_dead(s, place);
}

/* A dead place where one is met soon, when one is wanted; else any number about the session's places. */
static unsigned stray_place(const struct session *s, struct chance *c, bool dead)
{
    unsigned p = 0;
    for (unsigned tries = 0; tries < 6; tries++) {
        p = chance_below(c, s->made.places + 1u);
        if (dead && is_dead_place(s, p))
            return p;
    }
    return p;
}

/* Operands near what the kind wants. No kill that would be taken, and few such begins: each ends much. */
static void pick_stray(const struct session *s, struct chance *c, uint8_t record[RECORD_LEN])
{
    unsigned task = chance_below(c, s->made.tasks + 2u), finish = stray_finish(s, c);
    unsigned place = stray_place(s, c, true), other = stray_place(s, c, false);
    switch (chance_between(c, SPAWN, BEGIN)) {
    case SPAWN:
        write_record(record, SPAWN, task, other, 0);
        break;
    case OPEN:
        write_record(record, OPEN, task, 0, 0);
        break;
    case END:
        write_record(record, END, task, 0, 0);
        break;
    case DELIVER:
        write_record(record, DELIVER, chance_once_in(c, 4) ? 120u + chance_below(c, 136) : chance_below(c, 16), 0, 0);
        break;
    case KILL:
        write_record(record, KILL, is_dead_place(s, place) ? place : chance_below(c, 2) * MAX_PLACES, 0, 0);
        break;
    case ADOPT:
        write_record(record, ADOPT, finish, 0, 0);
        break;
    case CANCEL:
        write_record(record, CANCEL, finish, place, 0);
        break;
    case ASK:
        write_record(record, ASK, finish, place, other);
        break;
    default: /* BEGIN */
        write_record(record, BEGIN, chance_once_in(c, 30) ? chance_between(c, 2, 8) : chance_below(c, 2) * 9, 0, 0);
        break;
    }
}

/* Four bytes of anything; or a stray of another kind, 0 and 10 among them; or a stray with one operand too many. */
static void pick_garbage(const struct session *s, struct chance *c, uint8_t record[RECORD_LEN])
{
    static const uint8_t no_kinds[] = {0, BEGIN + 1, BEGIN + 2, 128 + SPAWN, 255};
    pick_stray(s, c, record);
    switch (chance_below(c, 3)) {
    case 0:
        write_record(record, chance_byte(c), chance_byte(c), chance_byte(c), chance_byte(c));
        break;
    case 1:
        record[0] = no_kinds[chance_below(c, sizeof no_kinds)];
        break;
    default:
        if (record[0] != ASK)
            record[record[0] == SPAWN || record[0] == CANCEL ? 3 : 2 + chance_below(c, 2)]
                = (uint8_t)chance_between(c, 1, 255);
        break;
    }
}

bool picks_one(const struct session *s, struct chance *c, const struct weights *w, enum pick pick,
               uint8_t record[RECORD_LEN])
{
    switch (pick) {
    case PICK_SPAWN:
        return pick_spawn(s, c, record);
    case PICK_OPEN:
        return pick_of_running(s, c, OPEN, false, record);
    case PICK_END:
        return pick_of_running(s, c, END, false, record);
    case PICK_END_MAIN:
        return pick_of_running(s, c, END, true, record);
    case PICK_DELIVER:
        return pick_deliver(s, c, false, w->lazy_tags, record);
    case PICK_KILL:
        return pick_kill(s, c, record);
    case PICK_ADOPT:
        return pick_adopt(s, c, record);
    case PICK_CANCEL:
        return pick_cancel(s, c, false, w->keeps_books, record);
    case PICK_ASK:
        return pick_ask(s, c, false, false, record);
    case PICK_TOO_SOON:
        return pick_too_soon(s, c, record);
    case PICK_AGAIN:
        return pick_ask(s, c, false, true, record);
    case PICK_GARBAGE:
        pick_garbage(s, c, record);
        return true;
    default: /* PICK_STRAY */
        pick_stray(s, c, record);
        return true;
    }
}

static enum pick weighed(struct chance *c, const struct weights *w)
{
    unsigned total = 0, pick = 0;
    for (unsigned n = 0; n < PICK_COUNT; n++)
        total += w->of[n];
    unsigned left = chance_below(c, total);
    while (left >= w->of[pick])
        left -= w->of[pick++];
    return (enum pick)pick;
}

void picks_next(const struct session *s, struct chance *c, const struct weights *w, uint8_t record[RECORD_LEN])
{
    for (unsigned tries = 0; tries < 12; tries++)
        if (picks_one(s, c, w, weighed(c, w), record))
            return;
    pick_stray(s, c, record);
}

bool picks_drain(const struct session *s, struct chance *c, uint8_t record[RECORD_LEN])
{
    static const struct weights eager = {.lazy_tags = 0};
    static const enum pick order[] = {PICK_DELIVER, PICK_ADOPT, PICK_CANCEL, PICK_ASK, PICK_END};
    enum { KINDS = sizeof order / sizeof order[0] };
    unsigned first = chance_below(c, KINDS);
    for (unsigned n = 0; n < KINDS; n++)
        if (picks_one(s, c, &eager, order[(first + n) % KINDS], record))
            return true;
    return false;
}
