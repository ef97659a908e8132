/* The driver of request #101 over the second program: grows a whole task tree, with one kill or none, and prints it.
 *
 * One line of standard input, 'levels width places victim killstep', gives one run: a line a step, then the tally. What
 * comes next is chosen by trying, in the order of the request: a refused record changes nothing and is no step. */
#include "../second.h"
#include "../session.h"
#include "plan.h"

#include <inttypes.h>

struct run {
    struct plan plan;
    uint8_t tables[TABLES_LEN];
    unsigned steps, kills, zeros;
};

/* "One line a step (the record's four numbers and the answer)", and the tally brought up to date. */
static bool takes(struct run *r, unsigned kind, unsigned a, unsigned b, unsigned c)
{
    const uint8_t record[RECORD_LEN] = {(uint8_t)kind, (uint8_t)a, (uint8_t)b, (uint8_t)c};
    uint32_t answer = second_step(r->tables, sizeof r->tables, record, sizeof record);
    if (answer != DONE)
        return false;
    printf("%u %u %u %u %" PRIu32 "\n", kind, a, b, c, answer);
    r->steps++;
    r->kills += kind == KILL;
    r->zeros += answer == 0;
    return true;
}

/* "The kill, once, if the steps taken, begin included, have reached its step and the victim isn't place 0." A second
 * kill of the place is refused. */
static bool kills(struct run *r)
{
    const struct plan *p = &r->plan;
    return p->kill_step != 0 && r->steps >= p->kill_step && p->victim != 0 && takes(r, KILL, p->victim, 0, 0);
}

/* "The lowest adopt, cancel or ask (by record bytes) that is taken." */
static bool repairs(struct run *r, const struct session *s)
{
    for (unsigned f = 1; f <= s->made.finishes; f++)
        if (takes(r, ADOPT, f, 0, 0))
            return true;
    for (unsigned f = 1; f <= s->made.finishes; f++)
        for (unsigned v = 0; v < MAX_PLACES; v++)
            if (takes(r, CANCEL, f, v, 0))
                return true;
    for (unsigned f = 1; f <= s->made.finishes; f++)
        for (unsigned v = 0; v < MAX_PLACES; v++)
            for (unsigned j = 0; j < MAX_PLACES; j++)
                if (takes(r, ASK, f, v, j))
                    return true;
    return false;
}

/* "The lowest slot whose deliver is taken." */
static bool delivers(struct run *r)
{
    for (unsigned n = 0; n < SLOTS; n++)
        if (takes(r, DELIVER, n, 0, 0))
            return true;
    return false;
}

/* "Task 1 is at level 1", and a child one level below its spawner. */
static unsigned level_of(const struct session *s, unsigned t)
{
    unsigned level = 1;
    while ((t = s->task[t].spawner) != 0)
        level++;
    return level;
}

static unsigned children_of(const struct session *s, unsigned t)
{
    unsigned children = 0;
    for (unsigned child = 1; child <= s->made.tasks; child++)
        children += s->task[child].spawner == t;
    return children;
}

/* "The lowest running task's next act": "a task below the last level spawns width children, each to its place plus one
 * modulo the place count, then ends". */
static bool acts(struct run *r, const struct session *s)
{
    const struct plan *p = &r->plan;
    unsigned t = 1;
    while (t <= s->made.tasks && s->task[t].status != RUNNING)
        t++;
    if (t > s->made.tasks)
        return false;
    if (level_of(s, t) < p->levels && children_of(s, t) < p->width)
        return takes(r, SPAWN, t, (s->task[t].at + 1u) % p->places, 0);
    return takes(r, END, t, 0, 0);
}

/* One turn: the first of the four that has a step; false where none has. */
static bool turn(struct run *r)
{
    struct session s;
    second_load(&s, r->tables);
    return kills(r) || repairs(r, &s) || delivers(r) || acts(r, &s);
}

/* Begin is the first step; "it stops when no turn has a step". */
static void play(struct run *r)
{
    bool taken = takes(r, BEGIN, r->plan.places, 0, 0);
    while (taken)
        taken = turn(r);
    printf("end %u %u %u\n", r->steps, r->kills, r->zeros);
}

int main(void)
{
    static struct run r;
    if (read_plan(stdin, &r.plan))
        play(&r);
    else
        puts("refused");
    return fflush(stdout) == 0 ? 0 : 1;
}
