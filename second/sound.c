/* The sound ranges of document 01: "tested in row 0, rows of made tasks and finishes, present books, full slots
 * (fields their tag uses), and the present and tag bytes themselves; other bytes are not tested." */
#include "session.h"

static bool is_mark(uint8_t byte)
{
    return byte <= 1;
}

/* "Places 2 to 8; finishes made to 32; the dead mask names only session places above 0." */
static bool made_is_sound(const struct made *made)
{
    return made->places >= 2 && made->places <= MAX_PLACES && made->finishes <= MAX_FINISHES
        && (made->dead >> made->places) == 0 && !has_bit(made->dead, 0);
}

/* "A task's opener or spawner below the task": being below a made task, it is made or 0. */
static bool task_is_sound(const struct session *s, unsigned t)
{
    const struct task *task = &s->task[t];
    return is_place(s, task->from) && is_place(s, task->at) && is_made_finish(s, task->finish)
        && task->status >= WAITS_FOR_PUBLISH && task->status <= LOST && is_mark(task->sent) && task->spawner < t;
}

/* "A finish's ... parent below its own number", "a finish's opener below its main task": each is then made or 0. */
static bool finish_is_sound(const struct session *s, unsigned f)
{
    const struct finish *finish = &s->finish[f];
    return is_place(s, finish->home) && is_made_task(s, finish->main_task) && finish->opener < finish->main_task
        && finish->parent < f && finish->status >= ACTIVE && finish->status <= FINISH_LOST
        && is_mark(finish->published);
}

/* "A book's parent below its own number", "an adopted book's parent not 0; a present book's finish made". Ghosts
 * and asked marks are masks and have no range. */
static bool book_is_sound(const struct session *s, unsigned f)
{
    const struct book *book = &s->book[f];
    if (!is_present(book))
        return true;
    return is_mark(book->present) && f <= s->made.finishes && book->parent < f && is_mark(book->adopt_due)
        && is_mark(book->adopted) && (!is_set(book->adopted) || book->parent != 0);
}

/* "Fields their tag uses": a ghost is a finish that is named, and so made. A number that is a count has no range, nor
 * have the eight counts. */
static bool message_is_sound(const struct session *s, const struct message *m)
{
    if (m->tag == EMPTY)
        return true;
    if (m->tag > DROPPED_COUNT || !is_made_finish(s, m->finish))
        return false;
    const struct used used = fields_used(m->tag);
    return (!used.task || is_made_task(s, m->task)) && (!used.from || is_place(s, m->from))
        && (!used.to || is_place(s, m->to)) && (m->tag != GHOST_ENDED || is_made_finish(s, m->number));
}

bool second_is_sound(const struct session *s)
{
    if (!made_is_sound(&s->made))
        return false;
    for (unsigned t = 1; t <= s->made.tasks; t++)
        if (!task_is_sound(s, t))
            return false;
    for (unsigned f = 1; f <= s->made.finishes; f++)
        if (!finish_is_sound(s, f))
            return false;
    for (unsigned f = 1; f <= MAX_FINISHES; f++)
        if (!book_is_sound(s, f))
            return false;
    for (unsigned n = 0; n < SLOTS; n++)
        if (!message_is_sound(s, &s->slot[n]))
            return false;
    return true;
}
