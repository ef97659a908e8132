/* Refusals 2 to 6 of document 01, one function a number. Each is asked only where no earlier one was given, and the
 * session is sound. */
#include "session.h"

/* 2: "task or finish not made, place not in the session, slot above 127". */
static bool names_what_is_not(const struct session *s, struct action act)
{
    switch (act.kind) {
    case SPAWN:
        return !is_made_task(s, act.a) || !is_place(s, act.b);
    case OPEN:
    case END:
        return !is_made_task(s, act.a);
    case DELIVER:
        return act.a >= SLOTS;
    case KILL:
        return !is_place(s, act.a);
    case ADOPT:
        return !is_made_finish(s, act.a);
    case CANCEL:
        return !is_made_finish(s, act.a) || !is_place(s, act.b);
    default: /* ASK */
        return !is_made_finish(s, act.a) || !is_place(s, act.b) || !is_place(s, act.c);
    }
}

/* 3: "spawn to the task's own place; kill of place 0 or a dead place; cancel of a live place; ask from a live place
 * or to a dead one". */
static bool is_at_a_wrong_place(const struct session *s, struct action act)
{
    switch (act.kind) {
    case SPAWN:
        return act.b == s->task[act.a].at;
    case KILL:
        return act.a == 0 || is_dead(s, act.a);
    case CANCEL:
        return !is_dead(s, act.b);
    case ASK:
        return !is_dead(s, act.b) || is_dead(s, act.c);
    default:
        return false;
    }
}

/* 4: "task not running; slot empty; book absent; adopt not due; cancel while adopt is due or with that column all 0;
 * ask with the cell 0 or already asked". */
static bool is_not_ready(const struct session *s, struct action act)
{
    if (act.kind == SPAWN || act.kind == OPEN || act.kind == END)
        return s->task[act.a].status != RUNNING;
    if (act.kind == DELIVER)
        return s->slot[act.a].tag == EMPTY;
    if (act.kind == KILL)
        return false;
    const struct book *book = &s->book[act.a];
    if (!is_present(book))
        return true;
    switch (act.kind) {
    case ADOPT:
        return !is_set(book->adopt_due);
    case CANCEL:
        return is_set(book->adopt_due) || second_column_is_zero(book, act.b);
    default: /* ASK */
        return book->live[act.b][act.c] == 0 || was_asked(book, act.b, act.c);
    }
}

/* 5: "deliver of a held message, or ask of a book under repair". */
static bool is_held_back(const struct session *s, struct action act)
{
    return (act.kind == DELIVER && second_is_held(s, &s->slot[act.a]))
        || (act.kind == ASK && second_is_under_repair(s, &s->book[act.a]));
}

/* An end of a main task sends where its finish is published; another end where it is the last at its place. */
static bool end_sends(const struct session *s, const struct task *task)
{
    if (is_main(task))
        return is_set(s->finish[task->finish].published);
    return s->local[task->finish][task->at].live == 1;
}

static bool cancel_sends(const struct session *s, unsigned f, unsigned place)
{
    struct book after = s->book[f];
    second_clear_column(&after, place);
    return second_book_is_spent(&after) && second_closing_message(s, f).tag != EMPTY;
}

/* A message made by a deliver takes the delivered slot, so a deliver needs none. */
static bool needs_a_slot(const struct session *s, struct action act)
{
    switch (act.kind) {
    case SPAWN:
    case ASK:
        return true;
    case END:
        return end_sends(s, &s->task[act.a]);
    case CANCEL:
        return cancel_sends(s, act.a, act.b);
    default:
        return false;
    }
}

/* 6: "255 tasks, 32 finishes or 128 messages already, and one more is needed". Opening a finish makes its main task. */
static bool needs_more_than_there_is(const struct session *s, struct action act)
{
    bool needs_a_task = act.kind == SPAWN || act.kind == OPEN;
    bool needs_a_finish = act.kind == OPEN;
    return (needs_a_task && s->made.tasks == MAX_TASKS) || (needs_a_finish && s->made.finishes == MAX_FINISHES)
        || (needs_a_slot(s, act) && second_lowest_empty_slot(s) == SLOTS);
}

uint32_t second_refusal(const struct session *s, struct action act)
{
    if (names_what_is_not(s, act))
        return NOT_MADE;
    if (is_at_a_wrong_place(s, act))
        return WRONG_PLACE;
    if (is_not_ready(s, act))
        return NOT_READY;
    if (is_held_back(s, act))
        return HELD;
    if (needs_more_than_there_is(s, act))
        return FULL;
    return DONE;
}
