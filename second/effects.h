/* Small effects that end and deliver share. Each answers false where refusal 9 is due: "a wanted status below is not
 * found, or a count would leave 0 to 255". */
#ifndef SECOND_EFFECTS_H
#define SECOND_EFFECTS_H

#include "session.h"

static inline bool count_up(uint8_t *count)
{
    if (*count == MAX_COUNT)
        return false;
    ++*count;
    return true;
}

static inline bool count_down(uint8_t *count, uint8_t by)
{
    if (*count < by)
        return false;
    *count = (uint8_t)(*count - by);
    return true;
}

/* "An opener or spawner about to run, blocked (0 is none, and nothing runs)." */
static inline bool wake(struct session *s, uint8_t t)
{
    if (t == 0)
        return true;
    if (s->task[t].status != BLOCKED)
        return false;
    s->task[t].status = RUNNING;
    return true;
}

#endif
