/* The session tables of document 01 as structs, and the words that several rules share.
 *
 * Every field of the tables is a byte, so a struct of bytes in the order of the document has the layout
 * of its rows and is loaded and stored by copying. Bytes that no rule names are kept as they stand. */
#ifndef SECOND_SESSION_H
#define SECOND_SESSION_H

#include <stdbool.h>
#include <stddef.h>
#include <stdint.h>

enum {
    TABLES_LEN = 15104,
    RECORD_LEN = 4,
    MAX_PLACES = 8,
    MAX_TASKS = 255,
    MAX_FINISHES = 32,
    SLOTS = 128,
    MAX_COUNT = 255,
};

enum kind { SPAWN = 1, OPEN, END, DELIVER, KILL, ADOPT, CANCEL, ASK, BEGIN };

enum task_status {
    WAITS_FOR_PUBLISH = 1,
    WAITS_FOR_TRANSIT,
    ON_THE_WIRE,
    DROPPED,
    RUNNING,
    BLOCKED,
    ENDED,
    LOST
};

enum finish_status { ACTIVE = 1, PUBLISHING, WAITS_FOR_RELEASE, RELEASED, FINISH_LOST };

enum tag {
    EMPTY,
    PUBLISH,
    PUBLISHED,
    TRANSIT,
    GRANTED,
    DENIED,
    TASK,
    REPORT,
    RELEASE,
    GHOST_ENDED,
    COUNT_DROPPED,
    DROPPED_COUNT
};

enum answer {
    DONE,
    NO_SUCH_RECORD,
    NOT_MADE,
    WRONG_PLACE,
    NOT_READY,
    HELD,
    FULL,
    WRONG_LENGTH,
    UNSOUND,
    NOT_WANTED
};

struct action {
    uint8_t kind, a, b, c;
};

/* "Row 0: places, dead mask (bit p), tasks made (to 255), finishes made (to 32)." */
struct made {
    uint8_t places, dead, tasks, finishes, unused[4];
};

/* "Row t, task t: from, at, finish, status, sent (0 for a main task), opener or spawner." */
struct task {
    uint8_t from, at, finish, status, sent, spawner, unused[2];
};

/* "Row 255 + f, finish f: home, opener, parent, status, published, main task." */
struct finish {
    uint8_t home, opener, parent, status, published, main_task, unused[2];
};

/* "Store book of f, 18 rows": live and sent are by row i and byte j, "from i, at j"; asked is "byte i, bit j". */
struct book {
    uint8_t present, parent, adopt_due, adopted, ghosts[4];
    uint8_t live[MAX_PLACES][MAX_PLACES];
    uint8_t sent[MAX_PLACES][MAX_PLACES];
    uint8_t asked[MAX_PLACES];
};

/* "Local book of f at place p, 3 rows: received by sender; reported by sender; then live tasks and deny mask." */
struct local_book {
    uint8_t received[MAX_PLACES], reported[MAX_PLACES], live, deny, unused[6];
};

/* "Slot s, 2 rows: tag, finish, task, from, to, number; then eight counts by sender." */
struct message {
    uint8_t tag, finish, task, from, to, number, unused[2], counts[MAX_PLACES];
};

/* Tasks and finishes are numbered from 1. Number 0 names nobody: its rows are 0 here and are never stored. */
struct session {
    struct made made;
    struct task task[MAX_TASKS + 1];
    struct finish finish[MAX_FINISHES + 1];
    struct book book[MAX_FINISHES + 1];
    struct local_book local[MAX_FINISHES + 1][MAX_PLACES];
    struct message slot[SLOTS];
};

/* First byte of each part: "row t", "row 255 + f", "288 + 18(f - 1)", "864 + 3(8(f - 1) + p)", "1,632 + 2s". */
enum {
    TASKS_AT = 8 * 1,
    FINISHES_AT = 8 * 256,
    BOOKS_AT = 8 * 288,
    LOCALS_AT = 8 * 864,
    SLOTS_AT = 8 * 1632,
};

void second_load(struct session *s, const uint8_t *tables);
void second_store(const struct session *s, uint8_t *tables);

/* Whether every tested field is in its sound range (sound.c). */
bool second_is_sound(const struct session *s);

/* The first of refusals 2 to 6 that applies to an action other than a begin, or 0 (refusals.c). */
uint32_t second_refusal(const struct session *s, struct action act);

/* Takes an action that nothing above refuses. Answers 0, or 9 with the session in no particular state (steps.c). */
uint32_t second_take(struct session *s, struct action act);

/* Takes the message out of its slot and does what its tag says; false where that is refused 9 (deliver.c). */
bool second_deliver(struct session *s, unsigned slot);

/* What several rules speak of (words.c). */
bool second_column_is_zero(const struct book *book, unsigned place);
void second_clear_column(struct book *book, unsigned place);
bool second_is_under_repair(const struct session *s, const struct book *book);
bool second_owes_a_count(const struct session *s, const struct book *book);
bool second_is_quiet(const struct session *s);
bool second_book_is_spent(const struct book *book);
struct message second_closing_message(const struct session *s, unsigned f);
void second_closing_test(struct session *s, unsigned f, struct message *slot);
unsigned second_goes_to(const struct session *s, const struct message *m);
bool second_is_discarded(const struct session *s, const struct message *m);
bool second_is_held(const struct session *s, const struct message *m);
unsigned second_lowest_empty_slot(const struct session *s);

static inline bool has_bit(unsigned mask, unsigned bit)
{
    return (mask >> bit & 1u) != 0;
}

/* The store is written as place 8: "The store is never lost", and no mask of eight bits can name it. */
enum { STORE = MAX_PLACES };

static inline bool is_dead(const struct session *s, unsigned place)
{
    return has_bit(s->made.dead, place);
}

static inline bool is_place(const struct session *s, uint8_t place)
{
    return place < s->made.places;
}

static inline bool is_made_task(const struct session *s, uint8_t t)
{
    return t >= 1 && t <= s->made.tasks;
}

static inline bool is_made_finish(const struct session *s, uint8_t f)
{
    return f >= 1 && f <= s->made.finishes;
}

/* The fields that a full slot's tag uses beside its finish. "Every tag names its finish (9: the parent, with the ghost
 * in number). 1 and 2 name the waiting task; 3 to 6 the task, its from and its at as to; 7 has the reporter as from; 10
 * and 11 the dead place as from, the live one as to." A 10 carries the sent count in number, an 11 the dropped one. */
struct used {
    bool task, from, to, number;
};

static inline struct used fields_used(uint8_t tag)
{
    bool travels = tag >= TRANSIT && tag <= TASK, counts = tag == COUNT_DROPPED || tag == DROPPED_COUNT;
    return (struct used){.task = tag <= TASK,
                         .from = travels || counts || tag == REPORT,
                         .to = travels || counts,
                         .number = counts || tag == GHOST_ENDED};
}

/* A main task has "sent (0 for a main task)". */
static inline bool is_main(const struct task *t)
{
    return t->sent == 0;
}

/* A mark is set when it is 1, and a book is absent when its present byte is 0, as a slot is empty when its tag is 0.
 * Only the reading entries meet other values: to a step such tables are unsound. */
static inline bool is_set(uint8_t mark)
{
    return mark == 1;
}

static inline bool is_present(const struct book *book)
{
    return book->present != 0;
}

static inline bool was_asked(const struct book *book, unsigned dead, unsigned live)
{
    return has_bit(book->asked[dead], live);
}

/* "Four bytes of ghosts (finish g at bit g - 1, low byte first)". */
static inline bool has_ghost(const struct book *book, unsigned g)
{
    return has_bit(book->ghosts[(g - 1) / 8], (g - 1) % 8);
}

static inline void set_ghost(struct book *book, unsigned g, bool there)
{
    unsigned bit = 1u << (g - 1) % 8;
    uint8_t *byte = &book->ghosts[(g - 1) / 8];
    *byte = (uint8_t)(there ? *byte | bit : *byte & ~bit);
}

#endif
