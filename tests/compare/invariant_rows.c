/* The invariant: rows and statuses. */
#include "invariant.h"

#include <string.h>

static bool main_task_is_right(const struct session *s, unsigned t)
{
    const struct task *task = &s->task[t];
    const struct finish *finish = &s->finish[task->finish];
    return task->from == finish->home && task->at == finish->home && finish->main_task == t
        && task->spawner == finish->opener && task->status >= RUNNING;
}

static bool sent_task_is_right(const struct session *s, unsigned t)
{
    const struct task *task = &s->task[t];
    const struct task *spawner = &s->task[task->spawner];
    return task->spawner != 0 && task->from == spawner->at && task->finish == spawner->finish
        && task->from != task->at;
}

/* A main task is at its finish's home and is the one that the finish names; a sent task comes from its spawner. */
bool invariant_T(const struct session *s, const struct census *c)
{
    (void)c;
    for (unsigned t = 1; t <= s->made.tasks; t++)
        if (!(is_main(&s->task[t]) ? main_task_is_right(s, t) : sent_task_is_right(s, t)))
            return false;
    return true;
}

static bool finish_is_right(const struct session *s, unsigned f)
{
    const struct finish *finish = &s->finish[f];
    const struct task *main_task = &s->task[finish->main_task];
    if (main_task->finish != f || !is_main(main_task))
        return false;
    if (f == 1)
        return finish->home == 0 && finish->opener == 0 && finish->parent == 0 && finish->main_task == 1;
    const struct task *opener = &s->task[finish->opener];
    return finish->opener != 0 && finish->home == opener->at && finish->parent == opener->finish;
}

/* Finish 1 is that of the begin; another finish is homed at its opener, under its opener's finish. */
bool invariant_F(const struct session *s, const struct census *c)
{
    (void)c;
    for (unsigned f = 1; f <= s->made.finishes; f++)
        if (!finish_is_right(s, f))
            return false;
    return true;
}

static bool is_zero(const void *bytes, size_t len)
{
    static const uint8_t nothing[sizeof(struct local_book) * MAX_PLACES];
    return memcmp(bytes, nothing, len) == 0;
}

static bool task_row_is_clean(const struct session *s, unsigned t)
{
    const struct task *task = &s->task[t];
    return t <= s->made.tasks ? is_zero(task->unused, sizeof task->unused) : is_zero(task, sizeof *task);
}

static bool finish_rows_are_clean(const struct session *s, unsigned f)
{
    const struct finish *finish = &s->finish[f];
    if (!is_present(&s->book[f]) && !is_zero(&s->book[f], sizeof s->book[f]))
        return false;
    if (f > s->made.finishes)
        return is_zero(finish, sizeof *finish) && is_zero(s->local[f], sizeof s->local[f]);
    for (unsigned p = 0; p < MAX_PLACES; p++)
        if (!is_zero(s->local[f][p].unused, sizeof s->local[f][p].unused))
            return false;
    return is_zero(finish->unused, sizeof finish->unused);
}

static bool slot_is_clean(const struct message *m)
{
    return m->tag == EMPTY ? is_zero(m, sizeof *m) : is_zero(m->unused, sizeof m->unused);
}

/* Rows not made, unused bytes and the 18 rows of an absent book are 0. */
bool invariant_0(const struct session *s, const struct census *c)
{
    (void)c;
    for (unsigned t = 1; t <= MAX_TASKS; t++)
        if (!task_row_is_clean(s, t))
            return false;
    for (unsigned f = 1; f <= MAX_FINISHES; f++)
        if (!finish_rows_are_clean(s, f))
            return false;
    for (unsigned n = 0; n < SLOTS; n++)
        if (!slot_is_clean(&s->slot[n]))
            return false;
    return is_zero(s->made.unused, sizeof s->made.unused);
}

static bool finish_status_is_right(const struct session *s, const struct finish *finish)
{
    bool home_lives = is_alive(s, finish->home);
    const struct task *main_task = &s->task[finish->main_task];
    switch (finish->status) {
    case ACTIVE:
        return home_lives && is_at_work(main_task);
    case PUBLISHING:
        return home_lives && finish->published == 0 && main_task->status == BLOCKED;
    case WAITS_FOR_RELEASE:
        return home_lives && finish->published == 1 && main_task->status == ENDED;
    case RELEASED:
        return main_task->status == ENDED;
    default: /* FINISH_LOST */
        return !home_lives && (main_task->status == ENDED || main_task->status == LOST);
    }
}

/* What a finish's status says of its home and its main task. */
bool invariant_S1(const struct session *s, const struct census *c)
{
    (void)c;
    for (unsigned f = 1; f <= s->made.finishes; f++)
        if (!finish_status_is_right(s, &s->finish[f]))
            return false;
    return true;
}

/* No task at a dead place has 5 or 6; none from a dead place has 1 or 2; a lost task has a dead from or at. */
bool invariant_S2(const struct session *s, const struct census *c)
{
    (void)c;
    for (unsigned t = 1; t <= s->made.tasks; t++) {
        const struct task *task = &s->task[t];
        bool waits = task->status == WAITS_FOR_PUBLISH || task->status == WAITS_FOR_TRANSIT;
        if ((is_dead(s, task->at) && is_at_work(task)) || (is_dead(s, task->from) && waits)
            || (task->status == LOST && !is_dead(s, task->from) && !is_dead(s, task->at)))
            return false;
    }
    return true;
}

static bool unpublished_task_is_right(const struct finish *finish, const struct task *task)
{
    switch (finish->status) {
    case PUBLISHING:
        return task->status == WAITS_FOR_PUBLISH && task->spawner == finish->main_task;
    case FINISH_LOST:
        return task->status == LOST;
    default:
        return false;
    }
}

/* An unpublished finish has sent no task, but for the one it publishes for, or lost ones when it is lost. */
bool invariant_S3(const struct session *s, const struct census *c)
{
    (void)c;
    unsigned sent[MAX_FINISHES + 1] = {0};
    for (unsigned t = 1; t <= s->made.tasks; t++) {
        const struct task *task = &s->task[t];
        const struct finish *finish = &s->finish[task->finish];
        if (is_main(task) || finish->published != 0)
            continue;
        sent[task->finish]++;
        if (!unpublished_task_is_right(finish, task))
            return false;
    }
    for (unsigned f = 1; f <= s->made.finishes; f++)
        if (s->finish[f].status == PUBLISHING && sent[f] != 1)
            return false;
    return true;
}

/* A blocked task has exactly one reason to be blocked, a task that is not blocked has none. */
bool invariant_B(const struct session *s, const struct census *c)
{
    for (unsigned t = 1; t <= s->made.tasks; t++)
        if (c->reasons[t] != (s->task[t].status == BLOCKED))
            return false;
    return true;
}
