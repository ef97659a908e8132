/* The steps of document 01 but begin and deliver. Refusals 2 to 6 are behind them; what is left is 9, which is found
 * on the way: the session is the step's own copy, and a refused copy is not stored. */
#include "session.h"
#include "effects.h"

#include <string.h>

/* "A new message takes the lowest empty slot." */
static void post(struct session *s, struct message m)
{
    s->slot[second_lowest_empty_slot(s)] = m;
}

/* "Spawn: the task blocks; the new task is from its place to b. A main task whose finish is unpublished: finish
 * publishing, new task status 1, publish (1) sent. Otherwise status 2, transit (3)."
 * Wanted: "for a main task's spawn or end, its finish active". */
static bool spawn(struct session *s, uint8_t t, uint8_t place)
{
    struct task *task = &s->task[t];
    struct finish *finish = &s->finish[task->finish];
    if (is_main(task) && finish->status != ACTIVE)
        return false;
    bool publishes = is_main(task) && !is_set(finish->published);
    uint8_t new_task = ++s->made.tasks;
    task->status = BLOCKED;
    s->task[new_task] = (struct task){.from = task->at,
                                      .at = place,
                                      .finish = task->finish,
                                      .status = publishes ? WAITS_FOR_PUBLISH : WAITS_FOR_TRANSIT,
                                      .sent = 1,
                                      .spawner = t};
    if (publishes) {
        finish->status = PUBLISHING;
        post(s, (struct message){.tag = PUBLISH, .finish = task->finish, .task = new_task});
    } else {
        post(s, (struct message){
                    .tag = TRANSIT, .finish = task->finish, .task = new_task, .from = task->at, .to = place});
    }
    return true;
}

/* "Open: the task blocks; a new active finish is homed at its place, with a running main task, from and at that
 * place." "Parent is the opener's finish." */
static bool open_finish(struct session *s, uint8_t t)
{
    struct task *task = &s->task[t];
    uint8_t new_task = ++s->made.tasks;
    uint8_t new_finish = ++s->made.finishes;
    task->status = BLOCKED;
    s->task[new_task] = (struct task){
        .from = task->at, .at = task->at, .finish = new_finish, .status = RUNNING, .sent = 0, .spawner = t};
    s->finish[new_finish] = (struct finish){
        .home = task->at, .opener = t, .parent = task->finish, .status = ACTIVE, .main_task = new_task};
    return true;
}

/* "End, main task: unpublished, the finish is released and its opener, if any, runs; published, it waits for release
 * and sends a report (7) from its home, count 1 for its home." */
static bool end_main(struct session *s, struct task *task)
{
    struct finish *finish = &s->finish[task->finish];
    if (finish->status != ACTIVE)
        return false;
    task->status = ENDED;
    if (!is_set(finish->published)) {
        finish->status = RELEASED;
        return wake(s, finish->opener);
    }
    finish->status = WAITS_FOR_RELEASE;
    struct message report = {.tag = REPORT, .finish = task->finish, .from = finish->home};
    report.counts[finish->home] = 1;
    post(s, report);
    return true;
}

/* "End, other task: local live count down by one; at 0 a report carries received less reported for each sender, and
 * reported becomes received." */
static bool end_other(struct session *s, struct task *task)
{
    struct local_book *local = &s->local[task->finish][task->at];
    task->status = ENDED;
    if (!count_down(&local->live, 1))
        return false;
    if (local->live != 0)
        return true;
    struct message report = {.tag = REPORT, .finish = task->finish, .from = task->at};
    for (unsigned i = 0; i < MAX_PLACES; i++) {
        report.counts[i] = local->received[i];
        if (!count_down(&report.counts[i], local->reported[i]))
            return false;
        local->reported[i] = local->received[i];
    }
    post(s, report);
    return true;
}

static bool end(struct session *s, uint8_t t)
{
    struct task *task = &s->task[t];
    return is_main(task) ? end_main(s, task) : end_other(s, task);
}

/* "Tasks at the place running or blocked, and tasks from it waiting (1, 2), are lost." */
static void lose_tasks(struct session *s, uint8_t place)
{
    for (unsigned t = 1; t <= s->made.tasks; t++) {
        struct task *task = &s->task[t];
        bool there = task->at == place && (task->status == RUNNING || task->status == BLOCKED);
        bool waiting = task->from == place
            && (task->status == WAITS_FOR_PUBLISH || task->status == WAITS_FOR_TRANSIT);
        if (there || waiting)
            task->status = LOST;
    }
}

/* "Kill: ... unreleased finishes homed there are lost; its local books become 0; messages going to it vanish; every
 * book with a live count in its column has adopt due." */
static bool kill_place(struct session *s, uint8_t place)
{
    s->made.dead = (uint8_t)(s->made.dead | 1u << place);
    lose_tasks(s, place);
    for (unsigned f = 1; f <= s->made.finishes; f++)
        if (s->finish[f].home == place && s->finish[f].status != RELEASED)
            s->finish[f].status = FINISH_LOST;
    for (unsigned f = 1; f <= MAX_FINISHES; f++)
        memset(&s->local[f][place], 0, sizeof s->local[f][place]);
    for (unsigned n = 0; n < SLOTS; n++)
        if (s->slot[n].tag != EMPTY && second_goes_to(s, &s->slot[n]) == place)
            memset(&s->slot[n], 0, sizeof s->slot[n]);
    for (unsigned f = 1; f <= MAX_FINISHES; f++)
        if (is_present(&s->book[f]) && !second_column_is_zero(&s->book[f], place))
            s->book[f].adopt_due = 1;
    return true;
}

/* "Adopt f: every present unadopted book with a dead home and parent f becomes adopted and a ghost of f; due is
 * cleared." */
static bool adopt(struct session *s, uint8_t f)
{
    for (unsigned g = 1; g <= MAX_FINISHES; g++) {
        struct book *book = &s->book[g];
        if (is_present(book) && !is_set(book->adopted) && is_dead(s, s->finish[g].home) && book->parent == f) {
            book->adopted = 1;
            set_ghost(&s->book[f], g, true);
        }
    }
    s->book[f].adopt_due = 0;
    return true;
}

/* "Cancel f, v: column v becomes 0, then the closing test." Where that sends, a slot is empty: refusal 6 saw to it. */
static bool cancel(struct session *s, uint8_t f, uint8_t dead)
{
    second_clear_column(&s->book[f], dead);
    second_closing_test(s, f, &s->slot[second_lowest_empty_slot(s)]);
    return true;
}

/* "Ask f, v, j: marks the pair and sends count-dropped (10) with the sent count." */
static bool ask(struct session *s, uint8_t f, uint8_t dead, uint8_t live)
{
    struct book *book = &s->book[f];
    book->asked[dead] = (uint8_t)(book->asked[dead] | 1u << live);
    post(s, (struct message){
                .tag = COUNT_DROPPED, .finish = f, .from = dead, .to = live, .number = book->sent[dead][live]});
    return true;
}

static bool take(struct session *s, struct action act)
{
    switch (act.kind) {
    case SPAWN:
        return spawn(s, act.a, act.b);
    case OPEN:
        return open_finish(s, act.a);
    case END:
        return end(s, act.a);
    case DELIVER:
        return second_deliver(s, act.a);
    case KILL:
        return kill_place(s, act.a);
    case ADOPT:
        return adopt(s, act.a);
    case CANCEL:
        return cancel(s, act.a, act.b);
    default: /* ASK */
        return ask(s, act.a, act.b, act.c);
    }
}

uint32_t second_take(struct session *s, struct action act)
{
    return take(s, act) ? DONE : NOT_WANTED;
}
