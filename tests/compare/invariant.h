/* The invariant behind demand 3 of document 01, one function a conjunct, under the names of the design note.
 *
 * Each answers whether its conjunct holds of a sound session. Words of the note: R, P and L are a local book's
 * received, reported and live; h(f) is the home of f; q its book's parent. */
#ifndef COMPARE_INVARIANT_H
#define COMPARE_INVARIANT_H

#include "census.h"

typedef bool conjunct(const struct session *s, const struct census *c);

/* Rows and statuses (invariant_rows.c). */
conjunct invariant_T, invariant_F, invariant_0, invariant_S1, invariant_S2, invariant_S3, invariant_B;

/* Messages (invariant_messages.c). */
conjunct invariant_M0, invariant_M1, invariant_M3, invariant_MT, invariant_M7, invariant_M8, invariant_M9,
    invariant_M10, invariant_U;

/* Store books (invariant_books.c). */
conjunct invariant_K1, invariant_K2, invariant_K3, invariant_K4, invariant_K5, invariant_K6;

/* Cells and local books (invariant_counts.c). */
conjunct invariant_cells_bounds, invariant_cells_own, invariant_cells_live_sender, invariant_cells_not_asked,
    invariant_cells_asked, invariant_L1, invariant_L2, invariant_L3, invariant_C;

struct conjunct_entry {
    const char *name;
    conjunct *holds;
};

extern const struct conjunct_entry invariant_conjuncts[];
extern const unsigned invariant_conjunct_count;

/* The name of the first conjunct that the session breaks, or NULL. Unsound sessions break "sound". */
const char *invariant_broken(const struct session *s);

/* How many sessions have been tested against every conjunct up to the first broken one. */
uint64_t invariant_tested(void);

static inline bool is_alive(const struct session *s, unsigned place)
{
    return place < s->made.places && !is_dead(s, place);
}

static inline bool is_at_work(const struct task *t)
{
    return t->status == RUNNING || t->status == BLOCKED;
}

#endif
