/* The timed part. */
#ifndef BENCH_CLOCK_H
#define BENCH_CLOCK_H

#include "chains.h"

/* Both programs' step has this type and is called through it, so that neither can be inlined. */
typedef uint32_t step_function(uint8_t *tables, size_t tables_len, const uint8_t *record, size_t record_len);

/* Plays every chain of a row once. Answers nanoseconds a step; the restoring of the tables is not timed. */
double clock_row(step_function *step, const struct row *row);

#endif
