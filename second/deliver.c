/* Deliver, by tag: one function a row of document 01's table. The message is out of its slot already; what a row sends
 * goes back into that slot: "one made by a deliver, closing test included, takes the delivered slot". */
#include "session.h"
#include "effects.h"

#include <string.h>

/* "A deliver reads its message's own fields; replies 4, 5, 6 and 11 copy finish, task, from and to." */
static struct message reply(const struct message *m, uint8_t tag)
{
    return (struct message){.tag = tag, .finish = m->finish, .task = m->task, .from = m->from, .to = m->to};
}

/* "The nearest ancestor with a store book, 0 if none." Parents are below their children, so the climb ends. */
static uint8_t nearest_ancestor_with_book(const struct session *s, uint8_t f)
{
    uint8_t ancestor = s->finish[f].parent;
    while (ancestor != 0 && !is_present(&s->book[ancestor]))
        ancestor = s->finish[ancestor].parent;
    return ancestor;
}

/* "1 publish: book with live and sent 1 at home, home; its parent is the nearest ancestor with a store book, 0 if
 * none. Reply 2." Wanted: "finish publishing and book absent". */
static bool publish(struct session *s, const struct message *m, struct message *slot)
{
    const struct finish *finish = &s->finish[m->finish];
    struct book *book = &s->book[m->finish];
    if (finish->status != PUBLISHING || is_present(book))
        return false;
    *book = (struct book){.present = 1, .parent = nearest_ancestor_with_book(s, m->finish)};
    book->live[finish->home][finish->home] = 1;
    book->sent[finish->home][finish->home] = 1;
    *slot = (struct message){.tag = PUBLISHED, .finish = m->finish, .task = m->task};
    return true;
}

/* "2 published: finish active and published; its waiting task to status 2; reply 3." Wanted: "finish publishing and
 * task status 1". The transit's from and to are the task's own: the message has none. */
static bool published(struct session *s, const struct message *m, struct message *slot)
{
    struct finish *finish = &s->finish[m->finish];
    struct task *task = &s->task[m->task];
    if (finish->status != PUBLISHING || task->status != WAITS_FOR_PUBLISH)
        return false;
    finish->status = ACTIVE;
    finish->published = 1;
    task->status = WAITS_FOR_TRANSIT;
    *slot = (struct message){
        .tag = TRANSIT, .finish = m->finish, .task = m->task, .from = task->from, .to = task->at};
    return true;
}

/* "3 transit: live and sent up by one, reply 4; receiver dead: reply 5." */
static bool transit(struct session *s, const struct message *m, struct message *slot)
{
    struct book *book = &s->book[m->finish];
    if (is_dead(s, m->to)) {
        *slot = reply(m, DENIED);
        return true;
    }
    *slot = reply(m, GRANTED);
    return count_up(&book->live[m->from][m->to]) && count_up(&book->sent[m->from][m->to]);
}

/* "4 granted: task on the wire, its spawner runs, reply 6; receiver dead: the same without the reply." */
static bool granted(struct session *s, const struct message *m, struct message *slot)
{
    struct task *task = &s->task[m->task];
    if (task->status != WAITS_FOR_TRANSIT)
        return false;
    task->status = ON_THE_WIRE;
    if (!is_dead(s, m->to))
        *slot = reply(m, TASK);
    return wake(s, task->spawner);
}

/* "5 denied: task dropped, its spawner runs." Wanted: "4 and 5, task status 2". */
static bool denied(struct session *s, const struct message *m)
{
    struct task *task = &s->task[m->task];
    if (task->status != WAITS_FOR_TRANSIT)
        return false;
    task->status = DROPPED;
    return wake(s, task->spawner);
}

/* "6 task: received and live up, task runs; sender in deny mask: nothing." Wanted: "6 not denied, task status 3". */
static bool task_arrives(struct session *s, const struct message *m)
{
    struct local_book *local = &s->local[m->finish][m->to];
    struct task *task = &s->task[m->task];
    if (has_bit(local->deny, m->from))
        return true;
    if (task->status != ON_THE_WIRE)
        return false;
    task->status = RUNNING;
    return count_up(&local->received[m->from]) && count_up(&local->live);
}

/* "7 report: column lowered by the counts, closing test." */
static bool report(struct session *s, const struct message *m, struct message *slot)
{
    for (unsigned i = 0; i < MAX_PLACES; i++)
        if (!count_down(&s->book[m->finish].live[i][m->from], m->counts[i]))
            return false;
    second_closing_test(s, m->finish, slot);
    return true;
}

/* "8 release: released; opener, if any, runs." Wanted: "finish waits for release". */
static bool release(struct session *s, const struct message *m)
{
    struct finish *finish = &s->finish[m->finish];
    if (finish->status != WAITS_FOR_RELEASE)
        return false;
    finish->status = RELEASED;
    return wake(s, finish->opener);
}

/* "9 ghost-ended: ghost removed, closing test." */
static bool ghost_ended(struct session *s, const struct message *m, struct message *slot)
{
    set_ghost(&s->book[m->finish], m->number, false);
    second_closing_test(s, m->finish, slot);
    return true;
}

/* "10 count-dropped: sender denied; reply 11 with sent less received." The message carries the sent count. */
static bool count_dropped(struct session *s, const struct message *m, struct message *slot)
{
    struct local_book *local = &s->local[m->finish][m->to];
    local->deny = (uint8_t)(local->deny | 1u << m->from);
    *slot = reply(m, DROPPED_COUNT);
    slot->number = m->number;
    return count_down(&slot->number, local->received[m->from]);
}

/* "11 dropped: cell lowered, closing test." */
static bool dropped(struct session *s, const struct message *m, struct message *slot)
{
    if (!count_down(&s->book[m->finish].live[m->from][m->to], m->number))
        return false;
    second_closing_test(s, m->finish, slot);
    return true;
}

bool second_deliver(struct session *s, unsigned n)
{
    struct message *slot = &s->slot[n];
    const struct message m = *slot;
    memset(slot, 0, sizeof *slot);
    if (second_is_discarded(s, &m))
        return true;
    if (is_dead(s, second_goes_to(s, &m)))
        return false;
    switch (m.tag) {
    case PUBLISH:
        return publish(s, &m, slot);
    case PUBLISHED:
        return published(s, &m, slot);
    case TRANSIT:
        return transit(s, &m, slot);
    case GRANTED:
        return granted(s, &m, slot);
    case DENIED:
        return denied(s, &m);
    case TASK:
        return task_arrives(s, &m);
    case REPORT:
        return report(s, &m, slot);
    case RELEASE:
        return release(s, &m);
    case GHOST_ENDED:
        return ghost_ended(s, &m, slot);
    case COUNT_DROPPED:
        return count_dropped(s, &m, slot);
    default: /* DROPPED_COUNT */
        return dropped(s, &m, slot);
    }
}
