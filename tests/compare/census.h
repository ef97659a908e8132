/* The sums that the invariant speaks of, taken once for each tested session. */
#ifndef COMPARE_CENSUS_H
#define COMPARE_CENSUS_H

#include "../../second/session.h"

/* By finish, sender i and receiver j, or by task, or by finish. */
struct census {
    uint16_t q7[MAX_FINISHES + 1][MAX_PLACES][MAX_PLACES];
    uint8_t c4[MAX_FINISHES + 1][MAX_PLACES][MAX_PLACES];
    uint8_t c6[MAX_FINISHES + 1][MAX_PLACES][MAX_PLACES];
    uint8_t n10[MAX_FINISHES + 1][MAX_PLACES][MAX_PLACES];
    uint8_t n11[MAX_FINISHES + 1][MAX_PLACES][MAX_PLACES];
    /* The number of the last message 10, and of the last 11, of the pair. */
    uint8_t number10[MAX_FINISHES + 1][MAX_PLACES][MAX_PLACES];
    uint8_t number11[MAX_FINISHES + 1][MAX_PLACES][MAX_PLACES];
    /* Messages 9 by parent and ghost. */
    uint8_t n9[MAX_FINISHES + 1][MAX_FINISHES + 1];
    /* Messages of a finish: with tag 1 or 2; with tag 8; with any tag above 2. */
    uint8_t n12[MAX_FINISHES + 1], n8[MAX_FINISHES + 1], n3up[MAX_FINISHES + 1];
    /* Messages that name a task: with tag 1 or 2; with tag 3, 4 or 5; with tag 6. */
    uint8_t named12[MAX_TASKS + 1], named345[MAX_TASKS + 1], named6[MAX_TASKS + 1];
    /* Reasons for a task to be blocked. */
    uint16_t reasons[MAX_TASKS + 1];
    /* Sent tasks running or blocked, by finish and place. */
    uint8_t at_work[MAX_FINISHES + 1][MAX_PLACES];
};

/* The session is sound. */
void census_take(struct census *c, const struct session *s);

#endif
