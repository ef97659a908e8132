#include "sessions.h"

#include <string.h>

struct fault schedule_take(struct schedule *schedule, struct pair *p, const uint8_t record[RECORD_LEN],
                           struct checks checks)
{
    memcpy(schedule->record[schedule->count++], record, RECORD_LEN);
    return pair_take(p, record, checks);
}

/* A stage lasts until it is reached, and at most so many records. */
enum until { UNTIL_OUT_OF_RECORDS, UNTIL_TASKS, UNTIL_FINISHES, UNTIL_MESSAGES };

struct stage {
    struct weights weights;
    unsigned records;
    enum until until;
};

enum { MAX_STAGES = 9 };

struct plan {
    unsigned stages;
    struct stage stage[MAX_STAGES];
    bool drains;
};

#define TAG_BIT(tag) (1u << (tag))

/* Everything happens; which tags dawdle, how deep finishes nest and how often places die differ from session to
 * session. */
static struct stage mixed_stage(struct chance *c)
{
    struct stage stage = {.records = chance_between(c, 20, 400)};
    unsigned *of = stage.weights.of;
    of[PICK_SPAWN] = chance_between(c, 10, 40);
    of[PICK_OPEN] = chance_between(c, 1, 20);
    of[PICK_END] = chance_between(c, 2, 25);
    of[PICK_DELIVER] = chance_between(c, 20, 80);
    of[PICK_KILL] = chance_below(c, 4);
    of[PICK_ADOPT] = chance_between(c, 1, 30);
    of[PICK_CANCEL] = chance_between(c, 1, 30);
    of[PICK_ASK] = chance_between(c, 1, 30);
    of[PICK_TOO_SOON] = chance_below(c, 10);
    of[PICK_AGAIN] = chance_below(c, 3);
    of[PICK_STRAY] = chance_between(c, 1, 8);
    of[PICK_GARBAGE] = chance_below(c, 2);
    if (chance_once_in(c, 2))
        stage.weights.lazy_tags = (unsigned)chance_next(c) & (unsigned)chance_next(c) & 0xFFEu;
    return stage;
}

/* Work with no loss; task messages or grants dawdle, and are on their way when the loss comes. */
static struct stage work_stage(struct chance *c)
{
    struct stage stage = mixed_stage(c);
    stage.records = chance_between(c, 10, 90);
    stage.weights.of[PICK_KILL] = 0;
    stage.weights.lazy_tags |= chance_once_in(c, 2) ? TAG_BIT(TASK) : TAG_BIT(GRANTED);
    stage.weights.lazy_tags |= chance_once_in(c, 2) ? TAG_BIT(GHOST_ENDED) : 0;
    return stage;
}

static struct stage loss_stage(struct chance *c)
{
    struct stage stage = mixed_stage(c);
    stage.records = chance_between(c, 1, 4);
    stage.weights.of[PICK_KILL] = 300;
    return stage;
}

/* Nothing new begins and books are repaired. Task messages come late, after the ask that denies them; ghost-endeds may
 * still be on their way at the next loss. */
static struct stage repair_stage(struct chance *c)
{
    struct stage stage = mixed_stage(c);
    stage.records = chance_between(c, 10, 50);
    stage.weights.of[PICK_SPAWN] = 1;
    stage.weights.of[PICK_OPEN] = 0;
    stage.weights.of[PICK_END] = chance_below(c, 4);
    stage.weights.of[PICK_KILL] = 0;
    stage.weights.of[PICK_ADOPT] = stage.weights.of[PICK_CANCEL] = stage.weights.of[PICK_ASK] = 60;
    stage.weights.of[PICK_TOO_SOON] = 25;
    stage.weights.lazy_tags = chance_once_in(c, 4) ? 0 : TAG_BIT(TASK);
    stage.weights.lazy_tags |= chance_once_in(c, 2) ? TAG_BIT(GHOST_ENDED) : 0;
    return stage;
}

static struct plan mixed_plan(struct chance *c)
{
    return (struct plan){.stages = 1, .stage = {mixed_stage(c)}, .drains = true};
}

/* Work, a sudden loss, repair; and again. */
static struct plan loss_plan(struct chance *c)
{
    struct plan plan = {.stages = 3 * chance_between(c, 1, 3), .drains = true};
    for (unsigned n = 0; n < plan.stages; n += 3) {
        plan.stage[n] = work_stage(c);
        plan.stage[n + 1] = loss_stage(c);
        plan.stage[n + 2] = repair_stage(c);
    }
    return plan;
}

/* Little tried at a limit: what needs one more is refused 6, and what does not is taken. */
static struct stage strained_stage(struct chance *c)
{
    struct stage stage = mixed_stage(c);
    stage.records = chance_between(c, 20, 60);
    stage.weights.of[PICK_SPAWN] = 20;
    stage.weights.of[PICK_OPEN] = 20;
    stage.weights.of[PICK_DELIVER] = 4;
    stage.weights.of[PICK_KILL] = 0;
    stage.weights.of[PICK_ADOPT] = 20;
    stage.weights.of[PICK_CANCEL] = 40;
    stage.weights.of[PICK_ASK] = 20;
    stage.weights.lazy_tags = 0;
    return stage;
}

static struct plan many_tasks_plan(struct chance *c)
{
    struct plan plan = {.stages = 2, .stage = {mixed_stage(c), strained_stage(c)}, .drains = chance_once_in(c, 2)};
    struct stage *fill = &plan.stage[0];
    fill->records = 2500;
    fill->until = UNTIL_TASKS;
    fill->weights.of[PICK_SPAWN] = 40;
    fill->weights.of[PICK_OPEN] = 1;
    fill->weights.of[PICK_END] = 1;
    fill->weights.of[PICK_DELIVER] = 120;
    fill->weights.of[PICK_KILL] = 0;
    fill->weights.lazy_tags = 0;
    return plan;
}

static struct plan many_finishes_plan(struct chance *c)
{
    struct plan plan = {.stages = 2, .stage = {mixed_stage(c), strained_stage(c)}, .drains = true};
    struct stage *fill = &plan.stage[0];
    fill->records = 900;
    fill->until = UNTIL_FINISHES;
    fill->weights.of[PICK_OPEN] = 30;
    fill->weights.of[PICK_SPAWN] = 30;
    fill->weights.of[PICK_KILL] = chance_below(c, 2);
    return plan;
}

/* Many finishes with few tasks each. */
static struct stage scatter_stage(struct chance *c)
{
    struct stage stage = {.records = chance_between(c, 30, 120)};
    stage.weights.of[PICK_SPAWN] = 30;
    stage.weights.of[PICK_OPEN] = 20;
    stage.weights.of[PICK_DELIVER] = 150;
    return stage;
}

/* Main tasks end and their reports come in, so that what is left of a finish is elsewhere and may be lost whole. */
static struct stage leaving_stage(struct chance *c)
{
    struct stage stage = {.records = chance_between(c, 10, 60)};
    stage.weights.of[PICK_SPAWN] = 2;
    stage.weights.of[PICK_END_MAIN] = 20;
    stage.weights.of[PICK_DELIVER] = 60;
    return stage;
}

/* Spawns whose task messages stay in their slots, with repair that closes nothing, so that cancels and asks are left to
 * be refused when all slots are full. */
static struct stage flood_stage(void)
{
    struct stage stage = {.records = 1200, .until = UNTIL_MESSAGES, .weights = {.keeps_books = true}};
    stage.weights.of[PICK_SPAWN] = 40;
    stage.weights.of[PICK_OPEN] = 1;
    stage.weights.of[PICK_DELIVER] = 100;
    stage.weights.of[PICK_ADOPT] = 20;
    stage.weights.of[PICK_CANCEL] = 20;
    stage.weights.lazy_tags = TAG_BIT(TASK) | TAG_BIT(RELEASE) | TAG_BIT(GHOST_ENDED) | TAG_BIT(DROPPED_COUNT);
    return stage;
}

static struct plan flood_plan(struct chance *c)
{
    return (struct plan){
        .stages = 5,
        .stage = {scatter_stage(c), leaving_stage(c), loss_stage(c), flood_stage(), strained_stage(c)},
        .drains = chance_once_in(c, 2)};
}

static struct plan any_plan(struct chance *c)
{
    unsigned n = chance_below(c, 100);
    if (n < 25)
        return mixed_plan(c);
    if (n < 90)
        return loss_plan(c);
    if (n < 92)
        return many_tasks_plan(c);
    if (n < 95)
        return many_finishes_plan(c);
    return flood_plan(c);
}

static bool is_reached(const struct session *s, enum until until)
{
    switch (until) {
    case UNTIL_TASKS:
        return s->made.tasks == MAX_TASKS;
    case UNTIL_FINISHES:
        return s->made.finishes == MAX_FINISHES;
    case UNTIL_MESSAGES:
        return s->made.tasks == MAX_TASKS || second_lowest_empty_slot(s) == SLOTS;
    default:
        return false;
    }
}

static struct fault run_stage(const struct stage *stage, struct pair *p, struct chance *c, struct schedule *schedule,
                              struct checks checks)
{
    struct fault f = {.kind = FAULT_NONE};
    uint8_t record[RECORD_LEN];
    for (unsigned n = 0; n < stage->records && f.kind == FAULT_NONE && !is_reached(&p->now, stage->until); n++) {
        picks_next(&p->now, c, &stage->weights, record);
        f = schedule_take(schedule, p, record, checks);
    }
    return f;
}

static struct fault drain(struct pair *p, struct chance *c, struct schedule *schedule, struct checks checks)
{
    struct fault f = {.kind = FAULT_NONE};
    uint8_t record[RECORD_LEN];
    while (f.kind == FAULT_NONE && schedule->count < SCHEDULE_MAX && picks_drain(&p->now, c, record))
        f = schedule_take(schedule, p, record, checks);
    return f;
}

struct fault sessions_run(struct pair *p, struct chance *c, struct schedule *schedule, struct checks checks)
{
    struct plan plan = any_plan(c);
    const uint8_t begin[RECORD_LEN] = {BEGIN, (uint8_t)chance_between(c, 2, MAX_PLACES), 0, 0};
    schedule->count = 0;
    pair_start(p, NULL);
    struct fault f = schedule_take(schedule, p, begin, checks);
    for (unsigned n = 0; n < plan.stages && f.kind == FAULT_NONE; n++)
        f = run_stage(&plan.stage[n], p, c, schedule, checks);
    if (f.kind == FAULT_NONE && plan.drains)
        f = drain(p, c, schedule, checks);
    return f;
}
