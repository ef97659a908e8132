/* The core and the second program side by side on the same bytes. */
#ifndef COMPARE_PAIR_H
#define COMPARE_PAIR_H

#include "coverage.h"

enum fault_kind {
    FAULT_NONE,
    FAULT_ANSWER,     /* the two answers differ */
    FAULT_BYTES,      /* the tables after differ */
    FAULT_KEPT,       /* a refusal changed a byte */
    FAULT_READING,    /* a reading entry's answers differ */
    FAULT_UNREACHED,  /* 8 or 9 on tables that started at a begin */
    FAULT_INVARIANT,  /* a conjunct of the invariant broken */
    FAULT_DEMAND3     /* a part of demand 3 broken */
};

struct fault {
    enum fault_kind kind;
    const char *name; /* of the reading entry, the conjunct or the part */
    uint32_t core, second; /* the two answers */
    size_t byte; /* the first that differs */
};

/* What is tested after a record. Without compare only the core runs, for what the invariant finds by itself. */
struct checks {
    bool compare, invariant, readings;
};

struct pair {
    uint8_t core[TABLES_LEN], second[TABLES_LEN], before[TABLES_LEN];
    struct session was, now; /* the core's tables before and after the last record */
    bool begun; /* the tables started at a begin */
    uint64_t released; /* finishes released since that begin, by bit */
    struct coverage *coverage; /* NULL: not counted */
};

/* Puts both on the same tables; NULL stands for all 0. */
void pair_start(struct pair *p, const uint8_t *tables);

/* Hands one record to both and tests. */
struct fault pair_take(struct pair *p, const uint8_t record[RECORD_LEN], struct checks checks);

/* How often the reading entries were compared, and on how many quiet sessions. */
struct readings_met {
    uint64_t compared, quiet;
};
extern struct readings_met readings_met;

/* Compares the reading entries on any bytes and length. */
struct fault pair_readings(const uint8_t *core, const uint8_t *second, size_t len);

void fault_print(const struct fault *f);

#endif
