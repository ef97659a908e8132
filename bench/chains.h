/* The schedules that are timed. Each is made from a fixed seed, and while it is made both programs take every record of
 * it: where an answer or a byte differs, the benchmark ends with an error. */
#ifndef BENCH_CHAINS_H
#define BENCH_CHAINS_H

#include "../second/session.h"

enum { MAX_RECORDS = 4096, MAX_CHAINS = 16, REFUSED_RECORDS = 512 };

/* Records that follow each other from one state of the tables. */
struct chain {
    uint8_t start[TABLES_LEN], end[TABLES_LEN];
    size_t count;
    uint8_t record[MAX_RECORDS][RECORD_LEN];
    uint32_t answers; /* the sum of the answers */
};

/* A row of the printed table. */
struct row {
    const char *name;
    size_t chains;
    struct chain chain[MAX_CHAINS];
    unsigned kinds[BEGIN + 1]; /* how often each kind is in it; kind 0 stands for all that are not 1 to 9 */
};

/* 4 places, 10 tasks, from the begin to the release of finish 1. */
void chains_small(struct row *row);

/* 8 places, from the begin to 255 tasks, 32 finishes and 100 messages in flight or more: spawns, opens and delivers. */
void chains_filling(struct row *row);

/* Steps taken in such a state, each of them with 100 messages in flight or more. */
void chains_full(struct row *row);

/* Records that are all refused, as many by each of the numbers 1 to 6, in such a state after the loss of a place. */
void chains_refusals(struct row *row);

/* Those of one number. */
void chains_refused(struct row *row, uint32_t answer);

/* A kill and the repair that follows, with ghosts and positive dropped counts. */
void chains_repair(struct row *row);

#endif
