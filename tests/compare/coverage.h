/* What the compared records reached. A run that misses something it must reach has failed. */
#ifndef COMPARE_COVERAGE_H
#define COMPARE_COVERAGE_H

#include "../../second/session.h"

/* X(name, words, must be reached from a begin, must be reached on other tables). */
#define COVERAGE_LIST(X)                                                                                              \
    X(SPAWN_PUBLISHES, "spawn that publishes", 1, 1)                                                                  \
    X(SPAWN_TRANSIT, "spawn that sends a transit", 1, 1)                                                              \
    X(END_UNPUBLISHED, "end of a main task, unpublished", 1, 1)                                                       \
    X(END_PUBLISHED, "end of a main task, published", 1, 1)                                                           \
    X(END_NOT_LAST, "end of another task, not the last there", 1, 1)                                                  \
    X(END_REPORTS, "end of another task, reports", 1, 1)                                                              \
    X(KILL_MAKES_DUE, "kill that makes an adopt due", 1, 1)                                                           \
    X(KILL_EMPTIES_SLOT, "kill that makes a message vanish", 1, 1)                                                    \
    X(ADOPTED, "adopt that makes a ghost", 1, 1)                                                                      \
    X(FAR_PARENT, "publish under a farther ancestor", 1, 1)                                                           \
    X(NO_PARENT, "publish under none, though nested", 1, 1)                                                           \
    X(TRANSIT_DENIED, "transit to a dead place", 1, 1)                                                                \
    X(GRANTED_TO_DEAD, "granted, receiver dead", 1, 1)                                                                \
    X(TASK_DENIED, "task denied by a deny mask", 1, 1)                                                                \
    X(DROPPED_POSITIVE, "count-dropped, some dropped", 1, 1)                                                          \
    X(DROPPED_NONE, "count-dropped, none dropped", 1, 1)                                                              \
    X(PLACE_SPAWN, "3: spawn to its own place", 1, 1)                                                                 \
    X(PLACE_KILL_0, "3: kill of place 0", 1, 1)                                                                       \
    X(PLACE_KILL_DEAD, "3: kill of a dead place", 1, 1)                                                               \
    X(PLACE_CANCEL_LIVE, "3: cancel of a live place", 1, 1)                                                           \
    X(PLACE_ASK_FROM_LIVE, "3: ask from a live place", 1, 1)                                                          \
    X(PLACE_ASK_TO_DEAD, "3: ask to a dead place", 1, 1)                                                              \
    X(READY_NO_BOOK, "4: adopt, cancel or ask with no book", 1, 1)                                                    \
    X(READY_NOT_DUE, "4: adopt not due", 1, 1)                                                                        \
    X(READY_CANCEL_DUE, "4: cancel while adopt is due", 1, 1)                                                         \
    X(READY_CANCEL_ZERO, "4: cancel of a column all 0", 1, 1)                                                         \
    X(READY_ASK_ZERO, "4: ask with the cell 0", 1, 1)                                                                 \
    X(READY_ASKED, "4: ask of a pair already asked", 1, 1)                                                            \
    X(HELD_ASK, "5: ask of a book under repair", 1, 1)                                                                \
    X(HELD_TRANSIT, "5: held transit", 1, 1)                                                                          \
    X(HELD_REPORT, "5: held report", 1, 1)                                                                            \
    X(HELD_GHOST_ENDED, "5: held ghost-ended", 1, 1)                                                                  \
    X(DISCARDED_PUBLISH, "discarded publish", 1, 1)                                                                   \
    X(DISCARDED_TRANSIT, "discarded transit", 1, 1)                                                                   \
    X(DISCARDED_REPORT, "discarded report", 1, 1)                                                                     \
    X(DISCARDED_GHOST_ENDED, "discarded ghost-ended", 0, 1)                                                           \
    X(DISCARDED_DROPPED, "discarded dropped", 1, 1)                                                                   \
    X(CLOSED_BY_REPORT, "book closed by a report", 1, 1)                                                              \
    X(CLOSED_BY_GHOST_ENDED, "book closed by a ghost-ended", 1, 1)                                                    \
    X(CLOSED_BY_DROPPED, "book closed by a dropped", 1, 1)                                                            \
    X(CLOSED_BY_CANCEL, "book closed by a cancel", 1, 1)                                                              \
    X(CLOSED_RELEASES, "closing that sends a release", 1, 1)                                                          \
    X(CLOSED_GHOST_ENDED, "closing that sends a ghost-ended", 1, 1)                                                   \
    X(CLOSED_SILENTLY, "closing that sends nothing", 1, 1)                                                            \
    X(FULL_SPAWN_TASKS, "6: spawn, 255 tasks", 1, 1)                                                                  \
    X(FULL_SPAWN_MESSAGES, "6: spawn, 128 messages", 1, 1)                                                            \
    X(FULL_OPEN_TASKS, "6: open, 255 tasks", 1, 1)                                                                    \
    X(FULL_OPEN_FINISHES, "6: open, 32 finishes", 1, 1)                                                               \
    X(FULL_END_MAIN, "6: end of a main task, 128 messages", 1, 1)                                                     \
    X(FULL_END_OTHER, "6: end of another task, 128 messages", 1, 1)                                                   \
    X(FULL_CANCEL, "6: cancel, 128 messages", 1, 1)                                                                   \
    X(FULL_ASK, "6: ask, 128 messages", 1, 1)                                                                         \
    X(REUSED_SLOT, "reply with 128 messages, in the same slot", 1, 1)

#define COVERAGE_ENUM(name, words, reached, other) COVERED_##name,
enum covered { COVERAGE_LIST(COVERAGE_ENUM) COVERED_COUNT };

struct coverage {
    /* By answer and kind; kind 0 stands for all that are not 1 to 9. */
    uint64_t answers[10][10];
    /* Delivers by tag: taken, and refused 9. */
    uint64_t taken_tags[12], unwanted_tags[12];
    uint64_t special[COVERED_COUNT];
    uint64_t records;
};

/* Counts one record: the session before and after it, and the answer it got. */
void coverage_count(struct coverage *c, const struct session *was, const struct session *now, struct action act,
                    uint32_t answer);

/* Prints the counts under a heading; answers how many of those that must be reached were not. */
unsigned coverage_print(const struct coverage *c, const char *heading, bool from_a_begin);

#endif
