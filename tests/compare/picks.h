/* Which record comes next in a random schedule. */
#ifndef COMPARE_PICKS_H
#define COMPARE_PICKS_H

#include "../../second/session.h"
#include "chance.h"

/* What a pick may be. Those up to PICK_ASK would be taken, on tables that started at a begin and are at no limit. */
enum pick {
    PICK_SPAWN,
    PICK_OPEN,
    PICK_END,
    PICK_END_MAIN, /* of a main task */
    PICK_DELIVER,
    PICK_KILL,
    PICK_ADOPT,
    PICK_CANCEL,
    PICK_ASK,
    PICK_TOO_SOON, /* a held message, an ask of a book under repair, a cancel while adopt is due */
    PICK_AGAIN,    /* an ask of a pair already asked, with a count still there */
    PICK_STRAY,    /* a kind with operands that are likely, whether or not it would be taken */
    PICK_GARBAGE,  /* a record that is no record, or nearly */
    PICK_COUNT
};

struct weights {
    unsigned of[PICK_COUNT];
    unsigned lazy_tags; /* tags, by bit, that are mostly left in their slots */
    bool keeps_books; /* no cancel that would close a book */
};

/* Writes a record of the kind picked. False where there is none now. */
bool picks_one(const struct session *s, struct chance *c, const struct weights *w, enum pick pick,
               uint8_t record[RECORD_LEN]);

/* Picks by weight; falls back on a stray where nothing weighed can be had. */
void picks_next(const struct session *s, struct chance *c, const struct weights *w, uint8_t record[RECORD_LEN]);

/* Anything that carries the session on without beginning anything new. False where the session is at rest. */
bool picks_drain(const struct session *s, struct chance *c, uint8_t record[RECORD_LEN]);

#endif
