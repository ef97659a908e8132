#include "demand3.h"

struct demand3_met demand3_met;

uint64_t demand3_released(const struct session *s)
{
    uint64_t released = 0;
    for (unsigned f = 1; f <= s->made.finishes; f++)
        if (s->finish[f].status == RELEASED)
            released |= UINT64_C(1) << f;
    return released;
}

bool demand3_released_is_over(const struct session *s)
{
    /* Parents are below their children, so a parent's mark is there when a child asks for it. */
    bool is_over[MAX_FINISHES + 1] = {false};
    for (unsigned f = 1; f <= s->made.finishes; f++)
        is_over[f] = s->finish[f].status == RELEASED || is_over[s->finish[f].parent];
    for (unsigned t = 1; t <= s->made.tasks; t++) {
        uint8_t status = s->task[t].status;
        if ((status == RUNNING || status == BLOCKED) && is_over[s->task[t].finish])
            return false;
    }
    return true;
}

static bool cell_is_right(const struct session *s, unsigned f, unsigned i, unsigned j)
{
    const struct finish *finish = &s->finish[f];
    const struct local_book *local = &s->local[f][j];
    bool is_own = i == finish->home && j == finish->home;
    int for_main = is_own && s->task[finish->main_task].status != ENDED;
    return s->book[f].live[i][j] == local->received[i] - local->reported[i] + for_main;
}

bool demand3_quiet_books_are_right(const struct session *s)
{
    for (unsigned f = 1; f <= s->made.finishes; f++)
        for (unsigned j = 0; j < s->made.places && is_present(&s->book[f]); j++)
            for (unsigned i = 0; i < MAX_PLACES && !is_dead(s, j); i++)
                if (!cell_is_right(s, f, i, j))
                    return false;
    return true;
}

bool demand3_quiet_is_over(const struct session *s)
{
    return s->finish[1].status == RELEASED;
}

static bool some_task_runs(const struct session *s)
{
    for (unsigned t = 1; t <= s->made.tasks; t++)
        if (s->task[t].status == RUNNING)
            return true;
    return false;
}

static bool some_book_is_open(const struct session *s)
{
    for (unsigned f = 1; f <= s->made.finishes; f++)
        if (is_present(&s->book[f]))
            return true;
    return false;
}

const char *demand3_broken(const struct session *s, uint64_t was)
{
    uint64_t released = demand3_released(s);
    demand3_met.released += released != 0;
    if ((was & ~released) != 0)
        return "R, released stays released";
    if (!demand3_released_is_over(s))
        return "R, no task of a released finish is at work";
    if (!second_is_quiet(s))
        return NULL;
    demand3_met.quiet++;
    demand3_met.quiet_with_open_book += some_book_is_open(s);
    if (!demand3_quiet_books_are_right(s))
        return "Q, the books of a quiet session";
    if (some_task_runs(s))
        return NULL;
    demand3_met.quiet_and_none_runs++;
    return demand3_quiet_is_over(s) ? NULL : "P, a quiet session where nothing runs";
}
