#include "census.h"

#include <string.h>

static void add_message(struct census *c, const struct message *m)
{
    unsigned f = m->finish, i = m->from, j = m->to;
    if (m->tag > PUBLISHED)
        c->n3up[f]++;
    switch (m->tag) {
    case PUBLISH:
    case PUBLISHED:
        c->n12[f]++;
        c->named12[m->task]++;
        break;
    case TRANSIT:
    case DENIED:
        c->named345[m->task]++;
        break;
    case GRANTED:
        c->named345[m->task]++;
        c->c4[f][i][j]++;
        break;
    case TASK:
        c->named6[m->task]++;
        c->c6[f][i][j]++;
        break;
    case REPORT:
        for (unsigned sender = 0; sender < MAX_PLACES; sender++)
            c->q7[f][sender][m->from] = (uint16_t)(c->q7[f][sender][m->from] + m->counts[sender]);
        break;
    case RELEASE:
        c->n8[f]++;
        break;
    case GHOST_ENDED:
        c->n9[f][m->number]++;
        break;
    case COUNT_DROPPED:
        c->n10[f][i][j]++;
        c->number10[f][i][j] = m->number;
        break;
    case DROPPED_COUNT:
        c->n11[f][i][j]++;
        c->number11[f][i][j] = m->number;
        break;
    default:
        break;
    }
}

static void add_task(struct census *c, const struct task *t)
{
    if (is_main(t))
        return;
    if (t->status == WAITS_FOR_PUBLISH || t->status == WAITS_FOR_TRANSIT)
        c->reasons[t->spawner]++;
    if (t->status == RUNNING || t->status == BLOCKED)
        c->at_work[t->finish][t->at]++;
}

void census_take(struct census *c, const struct session *s)
{
    memset(c, 0, sizeof *c);
    for (unsigned n = 0; n < SLOTS; n++)
        add_message(c, &s->slot[n]);
    for (unsigned t = 1; t <= s->made.tasks; t++)
        add_task(c, &s->task[t]);
    for (unsigned f = 1; f <= s->made.finishes; f++)
        if (s->finish[f].status <= WAITS_FOR_RELEASE)
            c->reasons[s->finish[f].opener]++;
}
