/* A failing schedule made short: records and start bytes are dropped for as long as it fails in the same way. */
#ifndef COMPARE_SHRINK_H
#define COMPARE_SHRINK_H

#include "sessions.h"

/* Shrinks and prints: the start tables where they are not all 0, and the records in hex on one line. A NULL start is
 * zero tables. */
void shrink_and_print(struct schedule *schedule, const uint8_t *start, const struct fault *fault,
                      struct checks checks);

#endif
