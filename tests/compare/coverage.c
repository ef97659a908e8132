#include "coverage.h"

#include <inttypes.h>
#include <stdio.h>

static void count_closing(struct coverage *c, const struct session *was, unsigned f, enum covered by)
{
    uint8_t sent = second_closing_message(was, f).tag;
    c->special[by]++;
    c->special[sent == RELEASE           ? COVERED_CLOSED_RELEASES
                   : sent == GHOST_ENDED ? COVERED_CLOSED_GHOST_ENDED
                                         : COVERED_CLOSED_SILENTLY]++;
}

static bool has_closed(const struct session *was, const struct session *now, unsigned f)
{
    return is_present(&was->book[f]) && !is_present(&now->book[f]);
}

static void count_publish(struct coverage *c, const struct session *was, const struct session *now, unsigned f)
{
    uint8_t recorded = now->book[f].parent, direct = was->finish[f].parent;
    if (recorded != direct)
        c->special[recorded == 0 ? COVERED_NO_PARENT : COVERED_FAR_PARENT]++;
}

static void count_discarded(struct coverage *c, uint8_t tag)
{
    static const enum covered by_tag[12] = {[PUBLISH] = COVERED_DISCARDED_PUBLISH,
                                            [TRANSIT] = COVERED_DISCARDED_TRANSIT,
                                            [REPORT] = COVERED_DISCARDED_REPORT,
                                            [GHOST_ENDED] = COVERED_DISCARDED_GHOST_ENDED,
                                            [DROPPED_COUNT] = COVERED_DISCARDED_DROPPED};
    c->special[by_tag[tag]]++;
}

static void count_deliver(struct coverage *c, const struct session *was, const struct session *now, unsigned n)
{
    const struct message *m = &was->slot[n];
    const struct local_book *local = &was->local[m->finish][m->to % MAX_PLACES];
    c->taken_tags[m->tag]++;
    if (second_lowest_empty_slot(was) == SLOTS && now->slot[n].tag != EMPTY)
        c->special[COVERED_REUSED_SLOT]++;
    if (second_is_discarded(was, m)) {
        count_discarded(c, m->tag);
        return;
    }
    switch (m->tag) {
    case PUBLISH:
        count_publish(c, was, now, m->finish);
        break;
    case TRANSIT:
        c->special[COVERED_TRANSIT_DENIED] += is_dead(was, m->to);
        break;
    case GRANTED:
        c->special[COVERED_GRANTED_TO_DEAD] += is_dead(was, m->to);
        break;
    case TASK:
        c->special[COVERED_TASK_DENIED] += has_bit(local->deny, m->from);
        break;
    case COUNT_DROPPED:
        c->special[m->number > local->received[m->from] ? COVERED_DROPPED_POSITIVE : COVERED_DROPPED_NONE]++;
        break;
    case REPORT:
    case GHOST_ENDED:
    case DROPPED_COUNT:
        if (has_closed(was, now, m->finish))
            count_closing(c, was, m->finish,
                          m->tag == REPORT            ? COVERED_CLOSED_BY_REPORT
                              : m->tag == GHOST_ENDED ? COVERED_CLOSED_BY_GHOST_ENDED
                                                      : COVERED_CLOSED_BY_DROPPED);
        break;
    default:
        break;
    }
}

static void count_end(struct coverage *c, const struct session *was, const struct task *task)
{
    if (is_main(task))
        c->special[was->finish[task->finish].published != 0 ? COVERED_END_PUBLISHED : COVERED_END_UNPUBLISHED]++;
    else
        c->special[was->local[task->finish][task->at].live == 1 ? COVERED_END_REPORTS : COVERED_END_NOT_LAST]++;
}

static void count_kill(struct coverage *c, const struct session *was, const struct session *now)
{
    bool made_due = false, emptied = false;
    for (unsigned f = 1; f <= MAX_FINISHES; f++)
        made_due |= was->book[f].adopt_due != now->book[f].adopt_due;
    for (unsigned n = 0; n < SLOTS; n++)
        emptied |= was->slot[n].tag != now->slot[n].tag;
    c->special[COVERED_KILL_MAKES_DUE] += made_due;
    c->special[COVERED_KILL_EMPTIES_SLOT] += emptied;
}

static void count_taken(struct coverage *c, const struct session *was, const struct session *now, struct action act)
{
    const struct task *task = &was->task[act.a];
    switch (act.kind) {
    case SPAWN:
        c->special[now->task[now->made.tasks].status == WAITS_FOR_PUBLISH ? COVERED_SPAWN_PUBLISHES
                                                                          : COVERED_SPAWN_TRANSIT]++;
        break;
    case END:
        count_end(c, was, task);
        break;
    case DELIVER:
        count_deliver(c, was, now, act.a);
        break;
    case KILL:
        count_kill(c, was, now);
        break;
    case ADOPT:
        for (unsigned n = 0; n < 4; n++)
            if (was->book[act.a].ghosts[n] != now->book[act.a].ghosts[n]) {
                c->special[COVERED_ADOPTED]++;
                break;
            }
        break;
    case CANCEL:
        if (has_closed(was, now, act.a))
            count_closing(c, was, act.a, COVERED_CLOSED_BY_CANCEL);
        break;
    default:
        break;
    }
}

static void count_wrong_place(struct coverage *c, const struct session *was, struct action act)
{
    switch (act.kind) {
    case SPAWN:
        c->special[COVERED_PLACE_SPAWN]++;
        break;
    case KILL:
        c->special[act.a == 0 ? COVERED_PLACE_KILL_0 : COVERED_PLACE_KILL_DEAD]++;
        break;
    case CANCEL:
        c->special[COVERED_PLACE_CANCEL_LIVE]++;
        break;
    default: /* ASK */
        c->special[is_dead(was, act.b) ? COVERED_PLACE_ASK_TO_DEAD : COVERED_PLACE_ASK_FROM_LIVE]++;
        break;
    }
}

static void count_not_ready(struct coverage *c, const struct session *was, struct action act)
{
    if (act.kind != ADOPT && act.kind != CANCEL && act.kind != ASK)
        return;
    const struct book *book = &was->book[act.a];
    if (!is_present(book))
        c->special[COVERED_READY_NO_BOOK]++;
    else if (act.kind == ADOPT)
        c->special[COVERED_READY_NOT_DUE]++;
    else if (act.kind == CANCEL)
        c->special[book->adopt_due != 0 ? COVERED_READY_CANCEL_DUE : COVERED_READY_CANCEL_ZERO]++;
    else
        c->special[book->live[act.b][act.c] == 0 ? COVERED_READY_ASK_ZERO : COVERED_READY_ASKED]++;
}

static void count_held(struct coverage *c, const struct session *was, struct action act)
{
    if (act.kind == ASK) {
        c->special[COVERED_HELD_ASK]++;
        return;
    }
    uint8_t tag = was->slot[act.a].tag;
    c->special[tag == TRANSIT      ? COVERED_HELD_TRANSIT
                   : tag == REPORT ? COVERED_HELD_REPORT
                                   : COVERED_HELD_GHOST_ENDED]++;
}

/* Counted only where one limit alone is reached, so that each is known to refuse by itself. */
static void count_full(struct coverage *c, const struct session *was, struct action act)
{
    bool tasks = was->made.tasks == MAX_TASKS, finishes = was->made.finishes == MAX_FINISHES;
    bool messages = second_lowest_empty_slot(was) == SLOTS;
    switch (act.kind) {
    case SPAWN:
        c->special[COVERED_FULL_SPAWN_TASKS] += tasks && !messages;
        c->special[COVERED_FULL_SPAWN_MESSAGES] += messages && !tasks;
        break;
    case OPEN:
        c->special[COVERED_FULL_OPEN_TASKS] += tasks && !finishes;
        c->special[COVERED_FULL_OPEN_FINISHES] += finishes && !tasks;
        break;
    case END:
        c->special[is_main(&was->task[act.a]) ? COVERED_FULL_END_MAIN : COVERED_FULL_END_OTHER]++;
        break;
    case CANCEL:
        c->special[COVERED_FULL_CANCEL]++;
        break;
    default: /* ASK */
        c->special[COVERED_FULL_ASK]++;
        break;
    }
}

void coverage_count(struct coverage *c, const struct session *was, const struct session *now, struct action act,
                    uint32_t answer)
{
    c->records++;
    if (answer > NOT_WANTED)
        return;
    c->answers[answer][act.kind >= SPAWN && act.kind <= BEGIN ? act.kind : 0]++;
    if (act.kind == BEGIN)
        return;
    if (answer == DONE)
        count_taken(c, was, now, act);
    else if (answer == WRONG_PLACE)
        count_wrong_place(c, was, act);
    else if (answer == NOT_READY)
        count_not_ready(c, was, act);
    else if (answer == HELD)
        count_held(c, was, act);
    else if (answer == FULL)
        count_full(c, was, act);
    else if (answer == NOT_WANTED && act.kind == DELIVER)
        c->unwanted_tags[was->slot[act.a].tag]++;
}

/* Which answers each kind can get from a begin, and on other tables besides: a row an answer, a column a kind. */
static const char *const answers_from_a_begin[10] = {"-yyyyyyyyy", "yyyyyyyy-y", "-yyyyyyyyy", "-y---y-yy-",
                                                     "-yyyy-yyy-", "----y---y-", "-yyy---yy-", "----------",
                                                     "----------", "----------"};
static const char *const answers_on_other_tables[10] = {"-yyyyyyyyy", "yyyyyyyy-y", "-yyyyyyyyy", "-y---y-yy-",
                                                        "-yyyy-yyy-", "----y---y-", "-yyy---yy-", "----------",
                                                        "-yyyyyyyy-", "-y-yy-----"};

/* Ghost-ended wants nothing and counts nothing, so it is never refused 9. */
static const char wanted_tags[13] = "-yyyyyyyy-yy";

static unsigned missed(const char *what, unsigned number, uint64_t count, bool must)
{
    if (count != 0 || !must)
        return 0;
    printf("  NOT REACHED: %s %u\n", what, number);
    return 1;
}

static unsigned print_answers(const struct coverage *c, bool from_a_begin)
{
    static const char *const kinds[10] = {"none",   "spawn", "open",   "end", "deliver",
                                          "kill", "adopt", "cancel", "ask", "begin"};
    const char *const *must = from_a_begin ? answers_from_a_begin : answers_on_other_tables;
    unsigned misses = 0;
    printf("  answer");
    for (unsigned kind = 0; kind < 10; kind++)
        printf(" %9s", kinds[kind]);
    printf("\n");
    for (unsigned answer = 0; answer < 10; answer++) {
        printf("  %6u", answer);
        for (unsigned kind = 0; kind < 10; kind++)
            printf(" %9" PRIu64, c->answers[answer][kind]);
        printf("\n");
    }
    for (unsigned answer = 0; answer < 10; answer++)
        for (unsigned kind = 0; kind < 10; kind++)
            if (c->answers[answer][kind] == 0 && must[answer][kind] == 'y') {
                printf("  NOT REACHED: answer %u to %s\n", answer, kinds[kind]);
                misses++;
            }
    return misses;
}

static unsigned print_tags(const struct coverage *c, bool from_a_begin)
{
    unsigned misses = 0;
    printf("  delivered, by tag:");
    for (unsigned tag = 1; tag < 12; tag++)
        printf(" %u: %" PRIu64 ";", tag, c->taken_tags[tag]);
    printf("\n");
    if (!from_a_begin) {
        printf("  refused 9, by tag:");
        for (unsigned tag = 1; tag < 12; tag++)
            printf(" %u: %" PRIu64 ";", tag, c->unwanted_tags[tag]);
        printf("\n");
    }
    for (unsigned tag = 1; tag < 12; tag++) {
        misses += missed("delivered tag", tag, c->taken_tags[tag], true);
        misses += missed("refused 9, tag", tag, c->unwanted_tags[tag], !from_a_begin && wanted_tags[tag] == 'y');
    }
    return misses;
}

#define COVERAGE_ROW(name, words, reached, other) {words, {other, reached}},
static const struct {
    const char *words;
    bool must[2];
} special_rows[COVERED_COUNT] = {COVERAGE_LIST(COVERAGE_ROW)};

unsigned coverage_print(const struct coverage *c, const char *heading, bool from_a_begin)
{
    printf("%s: %" PRIu64 " records\n", heading, c->records);
    unsigned misses = print_answers(c, from_a_begin);
    misses += print_tags(c, from_a_begin);
    for (unsigned n = 0; n < COVERED_COUNT; n++) {
        bool miss = c->special[n] == 0 && special_rows[n].must[from_a_begin];
        printf("  %9" PRIu64 "  %s%s\n", c->special[n], special_rows[n].words, miss ? "  NOT REACHED" : "");
        misses += miss;
    }
    return misses;
}
