#define _POSIX_C_SOURCE 199309L
#include "clock.h"

#include <stdio.h>
#include <stdlib.h>
#include <string.h>
#include <time.h>

/* The time this process was at work: others on the same machine are not counted. */
static double now_in_ns(void)
{
    struct timespec t;
    clock_gettime(CLOCK_PROCESS_CPUTIME_ID, &t);
    return (double)t.tv_sec * 1e9 + (double)t.tv_nsec;
}

static double clock_chain(step_function *step, const struct chain *chain)
{
    static uint8_t tables[TABLES_LEN];
    uint32_t answers = 0;
    memcpy(tables, chain->start, TABLES_LEN);
    const double start = now_in_ns();
    for (size_t n = 0; n < chain->count; n++)
        answers += step(tables, TABLES_LEN, chain->record[n], RECORD_LEN);
    const double end = now_in_ns();
    if (answers != chain->answers || memcmp(tables, chain->end, TABLES_LEN) != 0) {
        fputs("bench: a timed run is not what was prepared\n", stderr);
        exit(1);
    }
    return end - start;
}

double clock_row(step_function *step, const struct row *row)
{
    double ns = 0;
    size_t steps = 0;
    for (size_t c = 0; c < row->chains; c++) {
        ns += clock_chain(step, &row->chain[c]);
        steps += row->chain[c].count;
    }
    return ns / (double)steps;
}
