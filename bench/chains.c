#include "chains.h"

#include "../include/finish.h"
#include "../second/second.h"
#include "../tests/compare/picks.h"

#include <inttypes.h>
#include <stdio.h>
#include <stdlib.h>
#include <string.h>

enum { FULL_MESSAGES = 100, SMALL_TASKS = 10, MAX_SEED = 5000 };

#define TAG_BIT(tag) (1u << (tag))

/* A session on its way: both programs' tables, and the same as the picks read it. */
struct course {
    uint8_t core[TABLES_LEN], second[TABLES_LEN];
    struct session now;
    struct chance chance;
};

static void give_up(const char *why)
{
    fprintf(stderr, "bench: %s\n", why);
    exit(1);
}

/* Hands a record to both. */
static uint32_t take(struct course *on, const uint8_t record[RECORD_LEN])
{
    const uint32_t core = finish_step(on->core, TABLES_LEN, record, RECORD_LEN);
    const uint32_t second = second_step(on->second, TABLES_LEN, record, RECORD_LEN);
    if (core != second || memcmp(on->core, on->second, TABLES_LEN) != 0) {
        fprintf(stderr, "bench: record %02x%02x%02x%02x: ", record[0], record[1], record[2], record[3]);
        fprintf(stderr, "the core answers %" PRIu32 ", the second program %" PRIu32 "\n", core, second);
        give_up("the answers or the tables differ");
    }
    if (core == DONE)
        second_load(&on->now, on->core);
    return core;
}

/* The seeds are tried in their order until a schedule has what it must have. */
static void start_course(struct course *on, uint64_t seed)
{
    if (seed > MAX_SEED)
        give_up("no seed leads to the schedule that is wanted");
    memset(on, 0, sizeof *on);
    on->chance = (struct chance){seed};
}

static void start_chain(struct chain *chain, const struct course *on)
{
    memcpy(chain->start, on->core, TABLES_LEN);
    chain->count = 0;
    chain->answers = 0;
}

static void note(struct chain *chain, struct course *on, const uint8_t record[RECORD_LEN])
{
    if (chain->count == MAX_RECORDS)
        give_up("a schedule is too long");
    chain->answers += take(on, record);
    memcpy(chain->record[chain->count++], record, RECORD_LEN);
    memcpy(chain->end, on->core, TABLES_LEN);
}

static void note_begin(struct chain *chain, struct course *on, unsigned places)
{
    const uint8_t record[RECORD_LEN] = {BEGIN, (uint8_t)places, 0, 0};
    note(chain, on, record);
}

/* Where nothing weighed can be had a pick is a stray, of any kind: only the kinds weighed are wanted here. */
static bool is_weighed(const struct weights *weights, unsigned kind)
{
    static const enum pick pick_of[] = {[SPAWN] = PICK_SPAWN, [OPEN] = PICK_OPEN,     [END] = PICK_END,
                                        [DELIVER] = PICK_DELIVER, [KILL] = PICK_KILL, [ADOPT] = PICK_ADOPT,
                                        [CANCEL] = PICK_CANCEL,   [ASK] = PICK_ASK};
    return kind != BEGIN && (weights->of[pick_of[kind]] != 0 || (kind == END && weights->of[PICK_END_MAIN] != 0));
}

/* A pick by weight, noted where it is taken. Answers whether it was. */
static bool note_pick(struct chain *chain, struct course *on, const struct weights *weights)
{
    uint8_t record[RECORD_LEN];
    picks_next(&on->now, &on->chance, weights, record);
    const struct action act = {record[0], record[1], record[2], record[3]};
    if (!is_weighed(weights, act.kind) || second_refusal(&on->now, act) != DONE)
        return false;
    note(chain, on, record);
    return true;
}

static bool note_one(struct chain *chain, struct course *on, enum pick pick)
{
    static const struct weights eager = {.lazy_tags = 0};
    uint8_t record[RECORD_LEN];
    if (!picks_one(&on->now, &on->chance, &eager, pick, record))
        return false;
    note(chain, on, record);
    return true;
}

static void count_kinds(struct row *row)
{
    for (size_t c = 0; c < row->chains; c++)
        for (size_t n = 0; n < row->chain[c].count; n++) {
            unsigned kind = row->chain[c].record[n][0];
            row->kinds[kind <= BEGIN ? kind : 0]++;
        }
}

static void start_row(struct row *row, const char *name)
{
    memset(row, 0, sizeof *row);
    row->name = name;
}

/* False where the session came to rest before it had its tasks; what was noted of it has to go. */
static bool note_small_session(struct chain *chain, struct course *on)
{
    static const struct weights work
        = {.of = {[PICK_SPAWN] = 30, [PICK_OPEN] = 6, [PICK_END] = 4, [PICK_DELIVER] = 60}};
    uint8_t record[RECORD_LEN];
    note_begin(chain, on, 4);
    while (on->now.made.tasks < SMALL_TASKS && on->now.finish[1].status != RELEASED)
        note_pick(chain, on, &work);
    while (picks_drain(&on->now, &on->chance, record))
        note(chain, on, record);
    if (on->now.finish[1].status != RELEASED)
        give_up("a small session came to rest with finish 1 not released");
    return on->now.made.tasks == SMALL_TASKS;
}

/* Many sessions end to end: each begins with its begin, so that nothing has to be restored between them. */
void chains_small(struct row *row)
{
    static struct course on;
    struct chain *chain = &row->chain[0];
    start_row(row, "small session");
    start_course(&on, 1);
    start_chain(chain, &on);
    row->chains = 1;
    while (chain->count < MAX_RECORDS - 256) {
        const size_t count = chain->count;
        const uint32_t answers = chain->answers;
        if (!note_small_session(chain, &on)) {
            chain->count = count;
            chain->answers = answers;
        }
    }
    count_kinds(row);
}

static unsigned messages_in(const struct session *s)
{
    unsigned full = 0;
    for (unsigned n = 0; n < SLOTS; n++)
        full += s->slot[n].tag != EMPTY;
    return full;
}

static bool is_full(const struct session *s)
{
    return s->made.tasks == MAX_TASKS && s->made.finishes == MAX_FINISHES && messages_in(s) >= FULL_MESSAGES;
}

/* From a begin: finishes to their limit, then tasks to theirs with the later task messages left in their slots, then
 * ends whose reports are left too. False where that did not lead to full tables. */
static bool note_filling(struct chain *chain, struct course *on)
{
    static const struct weights scatter = {.of = {[PICK_SPAWN] = 30, [PICK_OPEN] = 20, [PICK_DELIVER] = 150}};
    static const struct weights spread = {.of = {[PICK_SPAWN] = 40, [PICK_END] = 1, [PICK_DELIVER] = 160}};
    static const struct weights flood
        = {.of = {[PICK_SPAWN] = 40, [PICK_DELIVER] = 100}, .lazy_tags = TAG_BIT(TASK)};
    static const struct weights leave = {.of = {[PICK_END] = 10, [PICK_END_MAIN] = 2}};
    note_begin(chain, on, MAX_PLACES);
    for (unsigned n = 0; n < 1000 && on->now.made.finishes < MAX_FINISHES; n++)
        note_pick(chain, on, &scatter);
    for (unsigned n = 0; n < 1000 && on->now.made.tasks < 140; n++)
        note_pick(chain, on, &spread);
    for (unsigned n = 0; n < 2000 && on->now.made.tasks < MAX_TASKS; n++)
        note_pick(chain, on, &flood);
    for (unsigned n = 0; n < 16; n++)
        note_pick(chain, on, &leave);
    return is_full(&on->now);
}

/* Full tables by the first seed from this one on that leads there. Answers the seed. */
static uint64_t fill(struct chain *chain, struct course *on, uint64_t seed)
{
    start_course(on, seed);
    start_chain(chain, on);
    while (!note_filling(chain, on)) {
        start_course(on, ++seed);
        start_chain(chain, on);
    }
    return seed;
}

void chains_filling(struct row *row)
{
    static struct course on;
    start_row(row, "filling");
    uint64_t seed = 1;
    for (row->chains = 0; row->chains < 4; row->chains++)
        seed = fill(&row->chain[row->chains], &on, seed) + 1;
    count_kinds(row);
}

/* Work goes on, a place is lost, its books are repaired. False where the messages ran low too soon. */
static bool note_full_steps(struct chain *chain, struct course *on)
{
    static const struct weights work = {.of = {[PICK_END] = 20, [PICK_DELIVER] = 20}};
    static const struct weights repair = {.of = {[PICK_END] = 10,
                                                 [PICK_DELIVER] = 20,
                                                 [PICK_ADOPT] = 10,
                                                 [PICK_CANCEL] = 10,
                                                 [PICK_ASK] = 20}};
    for (unsigned n = 0; n < 12 && is_full(&on->now); n++)
        note_pick(chain, on, &work);
    if (!is_full(&on->now) || !note_one(chain, on, PICK_KILL))
        return false;
    for (unsigned n = 0; n < 80 && is_full(&on->now); n++)
        note_pick(chain, on, &repair);
    return chain->count >= 40;
}

void chains_full(struct row *row)
{
    static struct course on;
    static struct chain before;
    start_row(row, "full tables");
    for (uint64_t seed = 1; row->chains < 12; seed++) {
        struct chain *chain = &row->chain[row->chains];
        seed = fill(&before, &on, seed);
        start_chain(chain, &on);
        row->chains += note_full_steps(chain, &on);
    }
    count_kinds(row);
}

/* Full tables after the loss of a place, with some books repaired and others not, so that each refusal can be had.
 * Crowded, they have 128 messages: refusal 6 of what needs a slot, and no empty slot to deliver. */
static void make_refusing(struct course *on, bool crowded)
{
    static const struct weights repair = {.of = {[PICK_ADOPT] = 10, [PICK_CANCEL] = 20}};
    static const struct weights crowd = {.of = {[PICK_END] = 20, [PICK_ASK] = 1}};
    static struct chain before;
    bool found = false;
    for (uint64_t seed = 1; !found; seed++) {
        seed = fill(&before, on, seed);
        note_one(&before, on, PICK_KILL);
        for (unsigned n = 0; n < 20; n++)
            note_pick(&before, on, &repair);
        for (unsigned n = 0; n < 60 && crowded; n++)
            note_pick(&before, on, &crowd);
        found = is_full(&on->now) && (messages_in(&on->now) == SLOTS) == crowded;
    }
}

/* The highest a, b and c that are tried of each kind, from 0 on: over the edge of what there is, and 1 where the
 * operand must be 0. */
static const uint8_t highest[BEGIN + 2][3] = {[0] = {1, 1, 1},
                                              [SPAWN] = {MAX_TASKS, MAX_PLACES, 1},
                                              [OPEN] = {MAX_TASKS, 1, 1},
                                              [END] = {MAX_TASKS, 1, 1},
                                              [DELIVER] = {255, 1, 1},
                                              [KILL] = {MAX_PLACES, 1, 1},
                                              [ADOPT] = {MAX_FINISHES + 1, 1, 1},
                                              [CANCEL] = {MAX_FINISHES + 1, MAX_PLACES, 1},
                                              [ASK] = {MAX_FINISHES + 1, MAX_PLACES, MAX_PLACES},
                                              [BEGIN] = {MAX_PLACES + 1, 1, 1},
                                              [BEGIN + 1] = {1, 1, 1}};

/* The next record in the order of its bytes, within what is tried; false after the last. */
static bool next_record(uint8_t record[RECORD_LEN])
{
    for (unsigned n = RECORD_LEN - 1; n > 0; n--) {
        if (record[n] < highest[record[0]][n - 1]) {
            record[n]++;
            return true;
        }
        record[n] = 0;
    }
    return ++record[0] <= BEGIN + 1;
}

/* Every record of a kind that is tried and gets an answer; most are tried of spawns. */
struct found {
    size_t count;
    uint8_t record[(MAX_TASKS + 1) * (MAX_PLACES + 1) * 2][RECORD_LEN];
};

static void find_refused(struct found found[BEGIN + 2], struct course *on, uint32_t answer)
{
    static struct course try_on;
    uint8_t record[RECORD_LEN] = {0};
    try_on = *on;
    do {
        uint32_t got = take(&try_on, record);
        struct found *of = &found[record[0]];
        if (got == answer)
            memcpy(of->record[of->count++], record, RECORD_LEN);
        else if (got == DONE)
            try_on = *on;
    } while (next_record(record));
}

/* Kinds take turns, so that none outweighs another. */
static void note_refused(struct chain *chain, struct course *on, uint32_t answer, size_t most)
{
    static struct found found[BEGIN + 2];
    memset(found, 0, sizeof found);
    find_refused(found, on, answer);
    start_chain(chain, on);
    for (unsigned turn = 0; turn < 10 * MAX_RECORDS && chain->count < most; turn++) {
        const struct found *of = &found[turn % (BEGIN + 2)];
        if (of->count != 0)
            note(chain, on, of->record[chance_below(&on->chance, (unsigned)of->count)]);
    }
}

/* Two chains of as many records that are refused this number; in the second all slots are full. */
static void add_refused(struct row *row, uint32_t answer, size_t most)
{
    static struct course on;
    for (unsigned full = 0; full < 2; full++) {
        make_refusing(&on, full == 1);
        note_refused(&row->chain[row->chains++], &on, answer, most);
    }
}

void chains_refusals(struct row *row)
{
    start_row(row, "refusals only");
    for (uint32_t answer = 1; answer <= 6; answer++)
        add_refused(row, answer, REFUSED_RECORDS);
    count_kinds(row);
}

/* Refusal 1 takes a few nanoseconds and a look at the clock some hundreds, so more of them are needed. */
void chains_refused(struct row *row, uint32_t answer)
{
    static const char *const names[] = {NULL,            "  of them, 1", "  of them, 2", "  of them, 3",
                                        "  of them, 4", "  of them, 5", "  of them, 6"};
    start_row(row, names[answer]);
    add_refused(row, answer, answer == NO_SUCH_RECORD ? MAX_RECORDS : REFUSED_RECORDS);
    count_kinds(row);
}

/* What a repair must have met to be timed. */
struct met {
    unsigned ghosts, ghost_ended, dropped;
};

static void count_met(struct met *met, const struct session *was, const struct session *now,
                      const uint8_t record[RECORD_LEN])
{
    static const uint8_t none[4];
    const uint8_t a = record[1];
    if (record[0] == ADOPT)
        met->ghosts += memcmp(now->book[a].ghosts, none, sizeof none) != 0;
    if (record[0] == DELIVER) {
        met->ghost_ended += was->slot[a].tag == GHOST_ENDED;
        met->dropped += was->slot[a].tag == DROPPED_COUNT && was->slot[a].number != 0;
    }
}

/* Nothing new begins and no task ends: kills, repair, and the delivers that follow. */
static bool note_repair(struct chain *chain, struct course *on)
{
    static const struct weights repair
        = {.of = {[PICK_DELIVER] = 60, [PICK_ADOPT] = 30, [PICK_CANCEL] = 30, [PICK_ASK] = 60},
           .lazy_tags = TAG_BIT(TASK)};
    static struct session was;
    struct met met = {0, 0, 0};
    for (unsigned kills = 0; kills < 4; kills++) {
        note_one(chain, on, PICK_KILL);
        for (unsigned n = 0; n < 60; n++) {
            was = on->now;
            if (note_pick(chain, on, &repair))
                count_met(&met, &was, &on->now, chain->record[chain->count - 1]);
        }
    }
    return met.ghosts != 0 && met.ghost_ended != 0 && met.dropped != 0;
}

/* Work in many finishes, with tasks on the wire when the loss comes. */
void chains_repair(struct row *row)
{
    static const struct weights scatter
        = {.of = {[PICK_SPAWN] = 30, [PICK_OPEN] = 15, [PICK_DELIVER] = 120, [PICK_END] = 2, [PICK_END_MAIN] = 4}};
    static const struct weights flood
        = {.of = {[PICK_SPAWN] = 30, [PICK_DELIVER] = 90}, .lazy_tags = TAG_BIT(TASK) | TAG_BIT(GRANTED)};
    static struct course on;
    static struct chain before;
    start_row(row, "kills with repair");
    for (uint64_t seed = 1; row->chains < 12; seed++) {
        struct chain *chain = &row->chain[row->chains];
        start_course(&on, seed);
        start_chain(&before, &on);
        note_begin(&before, &on, MAX_PLACES);
        for (unsigned n = 0; n < 300; n++)
            note_pick(&before, &on, &scatter);
        for (unsigned n = 0; n < 120; n++)
            note_pick(&before, &on, &flood);
        start_chain(chain, &on);
        row->chains += note_repair(chain, &on);
    }
    count_kinds(row);
}
