/* Tables that no begin leads to. */
#ifndef COMPARE_DAMAGE_H
#define COMPARE_DAMAGE_H

#include "sessions.h"

/* Puts one tested field on an edge of its range, or just beyond: a new value is sound about as often as not. */
void damage_edge(uint8_t *tables, struct chance *c);

/* Changes a few bytes, mostly where they mean something, to values near their ranges' edges. */
void damage_some(uint8_t *tables, struct chance *c);

/* Any tables whose tested fields are all in their sound ranges; bytes that are not tested hold anything. */
void damage_sound(uint8_t *tables, struct chance *c);

/* Nearly sound tables with no message, for what the reading entries say of books: quiet as often as not. */
void damage_still(uint8_t *tables, struct chance *c);

/* Any bytes at all. */
void damage_arbitrary(uint8_t *tables, struct chance *c);

/* At most so many records on the tables as they stand. Stops at a fault. */
struct fault damage_run(const uint8_t *tables, unsigned most, struct pair *p, struct chance *c,
                        struct schedule *schedule, struct checks checks);

#endif
