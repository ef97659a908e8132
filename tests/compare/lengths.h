/* Wrong lengths, and the begin entry on any number of places. */
#ifndef COMPARE_LENGTHS_H
#define COMPARE_LENGTHS_H

#include "pair.h"

struct lengths_met {
    uint64_t steps, begins, readings;
    uint64_t refused; /* with 7 */
};

/* Tries them all once. Each buffer is of exactly its length, so that a sanitizer sees a byte read beyond it. */
struct fault lengths_run(struct lengths_met *met);

#endif
