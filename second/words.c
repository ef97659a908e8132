/* What several rules of document 01 speak of: columns, repair, where a message goes, the closing test. */
#include "session.h"

#include <string.h>

_Static_assert(sizeof(struct made) == 8 && sizeof(struct task) == 8 && sizeof(struct finish) == 8, "one row");
_Static_assert(sizeof(struct book) == 18 * 8, "18 rows");
_Static_assert(sizeof(struct local_book) == 3 * 8, "3 rows");
_Static_assert(sizeof(struct message) == 2 * 8, "2 rows");
_Static_assert(TASKS_AT + MAX_TASKS * sizeof(struct task) == FINISHES_AT, "rows 1 to 255");
_Static_assert(FINISHES_AT + MAX_FINISHES * sizeof(struct finish) == BOOKS_AT, "rows 256 to 287");
_Static_assert(BOOKS_AT + MAX_FINISHES * sizeof(struct book) == LOCALS_AT, "rows 288 to 863");
_Static_assert(LOCALS_AT + MAX_FINISHES * MAX_PLACES * sizeof(struct local_book) == SLOTS_AT, "rows 864 to 1,631");
_Static_assert(SLOTS_AT + SLOTS * sizeof(struct message) == TABLES_LEN, "1,888 rows");

void second_load(struct session *s, const uint8_t *tables)
{
    memset(&s->task[0], 0, sizeof s->task[0]);
    memset(&s->finish[0], 0, sizeof s->finish[0]);
    memset(&s->book[0], 0, sizeof s->book[0]);
    memset(&s->local[0], 0, sizeof s->local[0]);
    memcpy(&s->made, tables, sizeof s->made);
    memcpy(&s->task[1], tables + TASKS_AT, FINISHES_AT - TASKS_AT);
    memcpy(&s->finish[1], tables + FINISHES_AT, BOOKS_AT - FINISHES_AT);
    memcpy(&s->book[1], tables + BOOKS_AT, LOCALS_AT - BOOKS_AT);
    memcpy(&s->local[1], tables + LOCALS_AT, SLOTS_AT - LOCALS_AT);
    memcpy(&s->slot[0], tables + SLOTS_AT, TABLES_LEN - SLOTS_AT);
}

void second_store(const struct session *s, uint8_t *tables)
{
    memcpy(tables, &s->made, sizeof s->made);
    memcpy(tables + TASKS_AT, &s->task[1], FINISHES_AT - TASKS_AT);
    memcpy(tables + FINISHES_AT, &s->finish[1], BOOKS_AT - FINISHES_AT);
    memcpy(tables + BOOKS_AT, &s->book[1], LOCALS_AT - BOOKS_AT);
    memcpy(tables + LOCALS_AT, &s->local[1], SLOTS_AT - LOCALS_AT);
    memcpy(tables + SLOTS_AT, &s->slot[0], TABLES_LEN - SLOTS_AT);
}

/* A column is one receiver's live counts, over all eight senders whatever the session's places. */
bool second_column_is_zero(const struct book *book, unsigned place)
{
    for (unsigned i = 0; i < MAX_PLACES; i++)
        if (book->live[i][place] != 0)
            return false;
    return true;
}

void second_clear_column(struct book *book, unsigned place)
{
    for (unsigned i = 0; i < MAX_PLACES; i++)
        book->live[i][place] = 0;
}

/* "A book is under repair when adopt is due or a dead place's column is not all 0." */
bool second_is_under_repair(const struct session *s, const struct book *book)
{
    if (is_set(book->adopt_due))
        return true;
    for (unsigned p = 0; p < MAX_PLACES; p++)
        if (is_dead(s, p) && !second_column_is_zero(book, p))
            return true;
    return false;
}

/* "A count is owed when a dead sender and live receiver have a positive cell not yet asked."
 * A live receiver is a place of the session. */
bool second_owes_a_count(const struct session *s, const struct book *book)
{
    for (unsigned i = 0; i < MAX_PLACES; i++)
        for (unsigned j = 0; j < MAX_PLACES && j < s->made.places; j++)
            if (is_dead(s, i) && !is_dead(s, j) && book->live[i][j] != 0 && !was_asked(book, i, j))
                return true;
    return false;
}

/* Quiet: no message in flight, no book under repair, no count owed. */
bool second_is_quiet(const struct session *s)
{
    for (unsigned n = 0; n < SLOTS; n++)
        if (s->slot[n].tag != EMPTY)
            return false;
    for (unsigned f = 1; f <= MAX_FINISHES; f++) {
        const struct book *book = &s->book[f];
        if (is_present(book) && (second_is_under_repair(s, book) || second_owes_a_count(s, book)))
            return false;
    }
    return true;
}

/* "Closing test: total 0 and no ghosts." */
bool second_book_is_spent(const struct book *book)
{
    static const uint8_t nothing[sizeof book->live];
    return memcmp(book->live, nothing, sizeof book->live) == 0
        && memcmp(book->ghosts, nothing, sizeof book->ghosts) == 0;
}

/* What the closing test sends where it closes f's book; tag 0 where it sends nothing.
 * "Adopted: ghost-ended (9) goes to the book's parent. Otherwise release (8) if the home lives, nothing if it is
 * dead." Ghost-ended names "the parent, with the ghost in number". */
struct message second_closing_message(const struct session *s, unsigned f)
{
    const struct book *book = &s->book[f];
    if (is_set(book->adopted))
        return (struct message){.tag = GHOST_ENDED, .finish = book->parent, .number = (uint8_t)f};
    if (is_dead(s, s->finish[f].home))
        return (struct message){.tag = EMPTY};
    return (struct message){.tag = RELEASE, .finish = (uint8_t)f};
}

/* "The 18 rows become 0." The slot is written only where something is sent. */
void second_closing_test(struct session *s, unsigned f, struct message *slot)
{
    if (!second_book_is_spent(&s->book[f]))
        return;
    struct message out = second_closing_message(s, f);
    memset(&s->book[f], 0, sizeof s->book[f]);
    if (out.tag != EMPTY)
        *slot = out;
}

/* The column 'goes to' of the table of delivers. */
unsigned second_goes_to(const struct session *s, const struct message *m)
{
    switch (m->tag) {
    case PUBLISHED:
    case RELEASE:
        return s->finish[m->finish].home;
    case GRANTED:
    case DENIED:
        return m->from;
    case TASK:
    case COUNT_DROPPED:
        return m->to;
    default:
        return STORE;
    }
}

/* "At the store, 3 and 7 from a dead place, 11 answered by a dead place, and 3, 7, 9, 11 with no book are
 * discarded"; and of a publish, "Home dead: discard". */
bool second_is_discarded(const struct session *s, const struct message *m)
{
    bool no_book = !is_present(&s->book[m->finish]);
    switch (m->tag) {
    case PUBLISH:
        return is_dead(s, s->finish[m->finish].home);
    case TRANSIT:
    case REPORT:
        return no_book || is_dead(s, m->from);
    case DROPPED_COUNT:
        return no_book || is_dead(s, m->to);
    case GHOST_ENDED:
        return no_book;
    default:
        return false;
    }
}

/* "After that, 3, 7 and 9 are held while the book is under repair. 1 and 11 are never held." */
bool second_is_held(const struct session *s, const struct message *m)
{
    bool may_be_held = m->tag == TRANSIT || m->tag == REPORT || m->tag == GHOST_ENDED;
    return may_be_held && !second_is_discarded(s, m) && second_is_under_repair(s, &s->book[m->finish]);
}

/* "A new message takes the lowest empty slot"; SLOTS where none is empty. */
unsigned second_lowest_empty_slot(const struct session *s)
{
    unsigned n = 0;
    while (n < SLOTS && s->slot[n].tag != EMPTY)
        n++;
    return n;
}
