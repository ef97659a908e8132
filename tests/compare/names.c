#include "names.h"

#include "../../second/session.h"

#include <stdio.h>

static const char *const made_fields[8] = {"places", "dead mask", "tasks made", "finishes made",
                                           "unused", "unused",    "unused",     "unused"};
static const char *const task_fields[8] = {"from", "at",     "finish", "status", "sent", "opener or spawner",
                                           "unused", "unused"};
static const char *const finish_fields[8] = {"home",      "opener",    "parent", "status",
                                             "published", "main task", "unused", "unused"};
static const char *const book_fields[8] = {"present",    "parent",     "adopt due",  "adopted",
                                           "ghosts 1-8", "ghosts 9-16", "ghosts 17-24", "ghosts 25-32"};
static const char *const message_fields[8] = {"tag", "finish", "task", "from", "to", "number", "unused", "unused"};

static void name_book_byte(char *out, size_t len, unsigned book_byte)
{
    unsigned f = book_byte / sizeof(struct book) + 1, row = book_byte % sizeof(struct book) / 8, column = book_byte % 8;
    if (row == 0)
        snprintf(out, len, "book of finish %u, %s", f, book_fields[column]);
    else if (row <= 8)
        snprintf(out, len, "book of finish %u, live from %u at %u", f, row - 1, column);
    else if (row <= 16)
        snprintf(out, len, "book of finish %u, sent from %u at %u", f, row - 9, column);
    else
        snprintf(out, len, "book of finish %u, asked marks of sender %u", f, column);
}

static void name_local_byte(char *out, size_t len, unsigned local_byte)
{
    unsigned which = local_byte / sizeof(struct local_book), row = local_byte / 8 % 3, column = local_byte % 8;
    unsigned f = which / MAX_PLACES + 1, place = which % MAX_PLACES;
    if (row < 2)
        snprintf(out, len, "local book of finish %u at place %u, %s from %u", f, place,
                 row == 0 ? "received" : "reported", column);
    else
        snprintf(out, len, "local book of finish %u at place %u, %s", f, place,
                 column == 0 ? "live" : column == 1 ? "deny mask" : "unused");
}

static void name_slot_byte(char *out, size_t len, unsigned slot_byte)
{
    unsigned n = slot_byte / sizeof(struct message), column = slot_byte % 8;
    if (slot_byte % sizeof(struct message) < 8)
        snprintf(out, len, "slot %u, %s", n, message_fields[column]);
    else
        snprintf(out, len, "slot %u, count for sender %u", n, column);
}

void names_byte(char *out, size_t out_len, size_t byte)
{
    unsigned at = (unsigned)byte;
    char what[80];
    if (at < TASKS_AT)
        snprintf(what, sizeof what, "%s", made_fields[at]);
    else if (at < FINISHES_AT)
        snprintf(what, sizeof what, "task %u, %s", at / 8, task_fields[at % 8]);
    else if (at < BOOKS_AT)
        snprintf(what, sizeof what, "finish %u, %s", (at - FINISHES_AT) / 8 + 1, finish_fields[at % 8]);
    else if (at < LOCALS_AT)
        name_book_byte(what, sizeof what, at - BOOKS_AT);
    else if (at < SLOTS_AT)
        name_local_byte(what, sizeof what, at - LOCALS_AT);
    else
        name_slot_byte(what, sizeof what, at - SLOTS_AT);
    snprintf(out, out_len, "row %u, byte %u: %s", at / 8, at % 8, what);
}
