/* The three parts of demand 3, in their own words and on the tables alone: nothing here leans on the invariant. */
#ifndef COMPARE_DEMAND3_H
#define COMPARE_DEMAND3_H

#include "../../second/session.h"

/* R: no task of a released finish, or of one nested in it at any depth, is running or blocked. */
bool demand3_released_is_over(const struct session *s);

/* R, "then or later": what was released stays released. The masks have finish f at bit f. */
uint64_t demand3_released(const struct session *s);

/* Q: in a quiet session each open book's cell for a surviving receiver is received less reported, plus one in the
 * home's own cell until the main task ended. */
bool demand3_quiet_books_are_right(const struct session *s);

/* P: a quiet session with no running task has finish 1 released. */
bool demand3_quiet_is_over(const struct session *s);

/* How often the premise of each part was met. */
struct demand3_met {
    uint64_t released, quiet, quiet_with_open_book, quiet_and_none_runs;
};
extern struct demand3_met demand3_met;

/* The name of the first part that the session breaks, or NULL; was is what was released before, of this begin. */
const char *demand3_broken(const struct session *s, uint64_t was);

#endif
