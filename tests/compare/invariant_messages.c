/* The invariant: messages, and unpublished finishes. */
#include "invariant.h"

#include <string.h>

static bool counts_are_zero(const struct message *m)
{
    static const uint8_t nothing[MAX_PLACES];
    return memcmp(m->counts, nothing, sizeof m->counts) == 0;
}

static bool unused_fields_are_zero(const struct message *m)
{
    const struct used used = fields_used(m->tag);
    return (used.task || m->task == 0) && (used.from || m->from == 0) && (used.to || m->to == 0)
        && (used.number || m->number == 0) && (m->tag == REPORT || counts_are_zero(m));
}

/* A message that goes to a place goes to a live one, and has 0 in the fields that its tag does not use. */
bool invariant_M0(const struct session *s, const struct census *c)
{
    (void)c;
    for (unsigned n = 0; n < SLOTS; n++) {
        const struct message *m = &s->slot[n];
        if (m->tag == EMPTY)
            continue;
        unsigned goes_to = second_goes_to(s, m);
        if ((goes_to != STORE && !is_alive(s, goes_to)) || !unused_fields_are_zero(m))
            return false;
    }
    return true;
}

static bool publishing_message_is_right(const struct session *s, const struct message *m)
{
    const struct finish *finish = &s->finish[m->finish];
    const struct task *task = &s->task[m->task];
    bool present = is_present(&s->book[m->finish]);
    if (task->finish != m->finish || is_main(task))
        return false;
    if (is_dead(s, finish->home))
        return m->tag == PUBLISH && finish->status == FINISH_LOST && !present;
    return finish->status == PUBLISHING && task->status == WAITS_FOR_PUBLISH && present == (m->tag == PUBLISHED);
}

/* Tags 1 and 2: one for each publishing finish. */
bool invariant_M1(const struct session *s, const struct census *c)
{
    for (unsigned n = 0; n < SLOTS; n++) {
        const struct message *m = &s->slot[n];
        if ((m->tag == PUBLISH || m->tag == PUBLISHED) && !publishing_message_is_right(s, m))
            return false;
    }
    for (unsigned f = 1; f <= s->made.finishes; f++)
        if (c->n12[f] > 1 || (s->finish[f].status == PUBLISHING && c->n12[f] != 1))
            return false;
    return true;
}

static bool travelling_message_is_right(const struct session *s, const struct message *m)
{
    const struct task *task = &s->task[m->task];
    bool present = is_present(&s->book[m->finish]);
    if (m->finish != task->finish || m->from != task->from || m->to != task->at || is_main(task)
        || s->finish[m->finish].published != 1)
        return false;
    if (m->tag == TASK)
        return task->status == ON_THE_WIRE
            && (present || (is_dead(s, m->from) && has_bit(s->local[m->finish][m->to].deny, m->from)));
    if (is_dead(s, m->from))
        return m->tag == TRANSIT && task->status == LOST;
    return task->status == WAITS_FOR_TRANSIT && present;
}

/* Tags 3 to 6: they say what their task's row says, and a late task message is from a dead, denied sender. */
bool invariant_M3(const struct session *s, const struct census *c)
{
    (void)c;
    for (unsigned n = 0; n < SLOTS; n++) {
        const struct message *m = &s->slot[n];
        if (m->tag >= TRANSIT && m->tag <= TASK && !travelling_message_is_right(s, m))
            return false;
    }
    return true;
}

/* Each task is named by at most one message of tags 1 to 6; a waiting one by one of its own tags. */
bool invariant_MT(const struct session *s, const struct census *c)
{
    for (unsigned t = 1; t <= s->made.tasks; t++) {
        uint8_t status = s->task[t].status;
        if (c->named12[t] + c->named345[t] + c->named6[t] > 1
            || (status == WAITS_FOR_PUBLISH && c->named12[t] != 1)
            || (status == WAITS_FOR_TRANSIT && c->named345[t] != 1))
            return false;
    }
    return true;
}

/* Tag 7: some count is above 0; from a live place, the book is present. */
bool invariant_M7(const struct session *s, const struct census *c)
{
    (void)c;
    for (unsigned n = 0; n < SLOTS; n++) {
        const struct message *m = &s->slot[n];
        if (m->tag == REPORT
            && (counts_are_zero(m) || (is_alive(s, m->from) && !is_present(&s->book[m->finish]))))
            return false;
    }
    return true;
}

/* One release for each finish that waits for it and has no book. */
bool invariant_M8(const struct session *s, const struct census *c)
{
    for (unsigned f = 1; f <= s->made.finishes; f++) {
        bool wanted = s->finish[f].status == WAITS_FOR_RELEASE && !is_present(&s->book[f]);
        if (c->n8[f] != wanted)
            return false;
    }
    return true;
}

static bool ghost_is_accounted_for(const struct session *s, const struct census *c, unsigned q, unsigned g)
{
    const struct book *child = &s->book[g];
    unsigned kept = is_present(child) && child->adopted == 1 && child->parent == q;
    bool is_ghost = is_present(&s->book[q]) && has_ghost(&s->book[q], g);
    return c->n9[q][g] + kept == is_ghost && (!is_ghost || g <= s->made.finishes);
}

/* Tag 9: each ghost is either an adopted book of its parent or on its way to it, once. */
bool invariant_M9(const struct session *s, const struct census *c)
{
    for (unsigned n = 0; n < SLOTS; n++) {
        const struct message *m = &s->slot[n];
        if (m->tag == GHOST_ENDED
            && (m->number <= m->finish || is_alive(s, s->finish[m->number].home) || is_present(&s->book[m->number])))
            return false;
    }
    for (unsigned q = 1; q <= s->made.finishes; q++)
        for (unsigned g = 1; g <= MAX_FINISHES; g++)
            if (!ghost_is_accounted_for(s, c, q, g))
                return false;
    return true;
}

/* Tags 10 and 11: from a dead place, of an asked pair; a 10 carries at least what arrived and what still may. */
bool invariant_M10(const struct session *s, const struct census *c)
{
    for (unsigned n = 0; n < SLOTS; n++) {
        const struct message *m = &s->slot[n];
        if (m->tag != COUNT_DROPPED && m->tag != DROPPED_COUNT)
            continue;
        const struct book *book = &s->book[m->finish];
        if (!is_dead(s, m->from) || (is_present(book) && !was_asked(book, m->from, m->to)))
            return false;
        unsigned arrived = s->local[m->finish][m->to].received[m->from];
        if (m->tag == COUNT_DROPPED && m->number < arrived + c->c6[m->finish][m->from][m->to])
            return false;
    }
    return true;
}

/* The book of an unpublished finish: 1 in the home's own cell, no other count, no ghost. */
static bool fresh_book_is_right(const struct book *book, unsigned home)
{
    struct book fresh = {.present = 1, .parent = book->parent, .adopt_due = book->adopt_due, .adopted = book->adopted};
    fresh.live[home][home] = 1;
    fresh.sent[home][home] = 1;
    memcpy(fresh.asked, book->asked, sizeof fresh.asked);
    return memcmp(book, &fresh, sizeof fresh) == 0;
}

/* An unpublished finish: its local books are 0, it has no message but tags 1 and 2, and its book is fresh. */
bool invariant_U(const struct session *s, const struct census *c)
{
    static const struct local_book nothing[MAX_PLACES];
    for (unsigned f = 1; f <= s->made.finishes; f++) {
        if (s->finish[f].published != 0)
            continue;
        if (c->n3up[f] != 0 || memcmp(s->local[f], nothing, sizeof nothing) != 0
            || (is_present(&s->book[f]) && !fresh_book_is_right(&s->book[f], s->finish[f].home)))
            return false;
    }
    return true;
}
