/* Random schedules from a begin. */
#ifndef COMPARE_SESSIONS_H
#define COMPARE_SESSIONS_H

#include "pair.h"
#include "picks.h"

enum { SCHEDULE_MAX = 8192 };

/* The records taken so far, for what shrinks a failure. */
struct schedule {
    size_t count;
    uint8_t record[SCHEDULE_MAX][RECORD_LEN];
};

/* Hands a record to both programs and notes it. */
struct fault schedule_take(struct schedule *schedule, struct pair *p, const uint8_t record[RECORD_LEN],
                           struct checks checks);

/* One session from zero tables: a begin, some stages of picks, mostly a drain to rest. Stops at a fault. */
struct fault sessions_run(struct pair *p, struct chance *c, struct schedule *schedule, struct checks checks);

#endif
