#include "words.h"

#include <stdio.h>

#define COUNT_OF(array) (sizeof(array) / sizeof(array)[0])

static const char *word(const char *const *words, size_t count, size_t n)
{
    return n < count && words[n] != NULL ? words[n] : "?";
}

/* "Status: 1 waits for publish, 2 waits for transit, 3 on the wire, 4 dropped, 5 running, 6 blocked, 7 ended, 8
 * lost." */
const char *words_task_status(unsigned status)
{
    static const char *const words[] = {NULL,      "waits for publish", "waits for transit", "on the wire", "dropped",
                                        "running", "blocked",           "ended",             "lost"};
    return word(words, COUNT_OF(words), status);
}

/* "Status: 1 active, 2 publishing, 3 waits for release, 4 released, 5 lost"; a row not yet made is 0. */
const char *words_finish_status(unsigned status)
{
    static const char *const words[] = {"not made", "active", "publishing", "waits for release", "released", "lost"};
    return word(words, COUNT_OF(words), status);
}

/* The first column of the table of delivers. */
const char *words_tag(unsigned tag)
{
    static const char *const words[] = {NULL,   "publish", "published", "transit",     "granted",       "denied",
                                        "task", "report",  "release",   "ghost-ended", "count-dropped", "dropped"};
    return word(words, COUNT_OF(words), tag);
}

/* The part of a refusal's row that speaks of each kind; kind 0 stands for all that are not 1 to 9. NULL: document 01
 * never gives this number to this kind. */
static const char *const refusals[FINISH_NO_ROOM + 1][FINISH_BEGIN + 1] = {
    [FINISH_NO_ACTION] = {[0] = "kind not 1 to 9",
                          [FINISH_SPAWN] = "an operand that must be 0 is not",
                          [FINISH_OPEN] = "an operand that must be 0 is not",
                          [FINISH_END] = "an operand that must be 0 is not",
                          [FINISH_DELIVER] = "an operand that must be 0 is not",
                          [FINISH_KILL] = "an operand that must be 0 is not",
                          [FINISH_ADOPT] = "an operand that must be 0 is not",
                          [FINISH_CANCEL] = "an operand that must be 0 is not",
                          [FINISH_BEGIN] = "an operand that must be 0 is not"},
    [FINISH_NOT_THERE] = {[FINISH_SPAWN] = "task not made, or no such place",
                          [FINISH_OPEN] = "task not made",
                          [FINISH_END] = "task not made",
                          [FINISH_DELIVER] = "slot above 127",
                          [FINISH_KILL] = "place not in the session",
                          [FINISH_ADOPT] = "finish not made",
                          [FINISH_CANCEL] = "finish not made, or no such place",
                          [FINISH_ASK] = "finish not made, or no such place",
                          [FINISH_BEGIN] = "begin outside 2 to 8"},
    [FINISH_WRONG_PLACE] = {[FINISH_SPAWN] = "spawn to the task's own place",
                            [FINISH_KILL] = "kill of place 0 or a dead place",
                            [FINISH_CANCEL] = "cancel of a live place",
                            [FINISH_ASK] = "ask from a live place or to a dead one"},
    [FINISH_NOT_READY] = {[FINISH_SPAWN] = "task not running",
                          [FINISH_OPEN] = "task not running",
                          [FINISH_END] = "task not running",
                          [FINISH_DELIVER] = "slot empty",
                          [FINISH_ADOPT] = "book absent, or adopt not due",
                          [FINISH_CANCEL] = "book absent, adopt due or column all 0",
                          [FINISH_ASK] = "book absent, cell 0 or asked"},
    [FINISH_MUST_WAIT] = {[FINISH_DELIVER] = "deliver of a held message", [FINISH_ASK] = "ask of a book under repair"},
    [FINISH_NO_ROOM] = {[FINISH_SPAWN] = "255 tasks or 128 messages already",
                        [FINISH_OPEN] = "255 tasks or 32 finishes already",
                        [FINISH_END] = "128 messages already",
                        [FINISH_CANCEL] = "128 messages already",
                        [FINISH_ASK] = "128 messages already"},
};

static const char *words_by_kind(uint32_t answer, unsigned kind)
{
    if (answer >= COUNT_OF(refusals))
        return "?";
    return word(refusals[answer], COUNT_OF(refusals[0]), kind <= FINISH_BEGIN ? kind : 0);
}

const char *words_refusal(uint32_t answer, unsigned kind)
{
    switch (answer) {
    case FINISH_WRONG_LENGTH:
        return "buffer is not 15,104 bytes, or record is not 4";
    case FINISH_UNSOUND:
        return "a field breaks its sound range";
    case FINISH_UNWANTED:
        return "a wanted status is not found, or a count would leave 0 to 255";
    default:
        return words_by_kind(answer, kind);
    }
}

void words_record(char *out, size_t out_len, const uint8_t record[FINISH_RECORD_BYTES], uint32_t answer)
{
    const unsigned a = record[1], b = record[2], c = record[3];
    switch (answer == FINISH_NO_ACTION ? 0 : record[0]) {
    case FINISH_SPAWN:
        snprintf(out, out_len, "spawn task %u to place %u", a, b);
        break;
    case FINISH_OPEN:
        snprintf(out, out_len, "open a finish, task %u", a);
        break;
    case FINISH_END:
        snprintf(out, out_len, "end task %u", a);
        break;
    case FINISH_DELIVER:
        snprintf(out, out_len, "deliver slot %u", a);
        break;
    case FINISH_KILL:
        snprintf(out, out_len, "kill place %u", a);
        break;
    case FINISH_ADOPT:
        snprintf(out, out_len, "adopt finish %u", a);
        break;
    case FINISH_CANCEL:
        snprintf(out, out_len, "cancel finish %u, dead %u", a, b);
        break;
    case FINISH_ASK:
        snprintf(out, out_len, "ask finish %u, dead %u, live %u", a, b, c);
        break;
    case FINISH_BEGIN:
        snprintf(out, out_len, "begin %u places", a);
        break;
    default:
        snprintf(out, out_len, "record %02x%02x%02x%02x", record[0], a, b, c);
        break;
    }
}
