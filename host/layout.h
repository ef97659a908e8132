/* Where the session tables keep what the rack shows: document 01, 'Session tables'. Rows are of 8 bytes, and a number
 * here is a byte of its row. Only for display: every change of the tables is the core's. */
#ifndef RACK_LAYOUT_H
#define RACK_LAYOUT_H

#include <stdint.h>

enum { ROW_BYTES = 8, MAX_PLACES = 8, MAX_FINISHES = 32, SLOTS = 128 };

/* "Row 0: places, dead mask (bit p), tasks made (to 255), finishes made (to 32)." */
enum { MADE_PLACES, MADE_DEAD, MADE_TASKS, MADE_FINISHES };

/* "Row t, task t: from, at, finish, status, sent (0 for a main task), opener or spawner." */
enum { TASK_FROM, TASK_AT, TASK_FINISH, TASK_STATUS, TASK_SENT, TASK_SPAWNER };

/* "Row 255 + f, finish f: home, opener, parent, status, published, main task." */
enum { HOME_OF_FINISH, OPENER_OF_FINISH, PARENT_OF_FINISH, STATUS_OF_FINISH, PUBLISHED_OF_FINISH };

/* "Store book of f, 18 rows: present, parent, adopt due, adopted, four bytes of ghosts"; then the live counts. */
enum { BOOK_PRESENT, BOOK_PARENT, BOOK_ADOPT_DUE, BOOK_ADOPTED, BOOK_GHOSTS, BOOK_LIVE = ROW_BYTES };

/* "Slot s, 2 rows: tag, finish, task, from, to, number." */
enum { SLOT_TAG, SLOT_FINISH, SLOT_TASK, SLOT_FROM, SLOT_TO, SLOT_NUMBER };

static inline const uint8_t *row_of_task(const uint8_t *tables, unsigned t)
{
    return tables + ROW_BYTES * t;
}

static inline const uint8_t *row_of_finish(const uint8_t *tables, unsigned f)
{
    return tables + ROW_BYTES * (255 + f);
}

static inline const uint8_t *book_of(const uint8_t *tables, unsigned f)
{
    return tables + ROW_BYTES * (288 + 18 * (f - 1));
}

static inline const uint8_t *rows_of_slot(const uint8_t *tables, unsigned s)
{
    return tables + ROW_BYTES * (1632 + 2 * s);
}

/* A display must not read past the rows, whatever the byte says. */
static inline unsigned finishes_made(const uint8_t *tables)
{
    return tables[MADE_FINISHES] < MAX_FINISHES ? tables[MADE_FINISHES] : MAX_FINISHES;
}

/* "Finish g at bit g - 1, low byte first." */
static inline int has_ghost(const uint8_t *book, unsigned g)
{
    return book[BOOK_GHOSTS + (g - 1) / 8] >> (g - 1) % 8 & 1;
}

#endif
