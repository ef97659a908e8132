/* The rack's host, as its firmware would be: it lends the core the session tables and one record at a time, and shows
 * what came of it. Every change of the tables is the core's; see include/finish.h and document 01. */
#include "show.h"
#include "words.h"

#include <errno.h>
#include <stdbool.h>
#include <stdio.h>
#include <stdlib.h>
#include <string.h>

enum status { STATUS_OK = 0, STATUS_INPUT = 1, STATUS_USAGE = 2, STATUS_FAULT = 3 };

struct options {
    uint32_t places;
    bool quiet;
    const char *schedule; /* NULL: standard input */
};

static const char usage[] = "usage: rack [-q] [-p PLACES] [SCHEDULE]\n"
                            "  -q         only a line a step, and the tables once, at the end\n"
                            "  -p PLACES  begin with so many places, 2 to 8 (3)\n"
                            "  SCHEDULE   4-byte action records end to end (standard input)\n";

static bool read_number(const char *text, uint32_t *number)
{
    char *end;
    if (text[0] < '0' || text[0] > '9')
        return false;
    errno = 0;
    unsigned long long value = strtoull(text, &end, 10);
    *number = (uint32_t)value;
    return errno == 0 && *end == '\0' && value <= UINT32_MAX;
}

static bool read_options(int argc, char **argv, struct options *o)
{
    for (int n = 1; n < argc; n++) {
        if (strcmp(argv[n], "-q") == 0)
            o->quiet = true;
        else if (strcmp(argv[n], "-p") == 0 && n + 1 < argc && read_number(argv[n + 1], &o->places))
            n++;
        else if (argv[n][0] != '-' && o->schedule == NULL)
            o->schedule = argv[n];
        else
            return false;
    }
    return true;
}

/* 1 to 6 are the session's own refusals. 7 means that this program lent a buffer of a wrong length, and "on tables that
 * started at a begin, 8 and 9 are never given": nothing that is in the tables can be relied on then. */
static bool is_fault(uint32_t answer)
{
    return answer > FINISH_NO_ROOM;
}

static enum status say_fault(unsigned long number, uint32_t answer, unsigned kind)
{
    fflush(stdout);
    fprintf(stderr, "rack: step %lu: refused %lu, %s\n", number, (unsigned long)answer, words_refusal(answer, kind));
    fputs("rack: a fault of this host, or damaged tables: stopped\n", stderr);
    return STATUS_FAULT;
}

/* The first step is numbered 0: the schedule's records count from 1. */
static enum status begin_session(uint8_t *tables, const struct options *o)
{
    uint32_t answer = finish_begin(tables, FINISH_TABLES_BYTES, o->places);
    if (is_fault(answer))
        return say_fault(0, answer, FINISH_BEGIN);
    if (answer != FINISH_DONE) {
        fprintf(stderr, "rack: %lu places: refused %lu, %s\n%s", (unsigned long)o->places, (unsigned long)answer,
                words_refusal(answer, FINISH_BEGIN), usage);
        return STATUS_USAGE;
    }
    const uint8_t record[FINISH_RECORD_BYTES] = {FINISH_BEGIN, (uint8_t)o->places, 0, 0};
    show_step(0, record, answer);
    return STATUS_OK;
}

static enum status take_step(uint8_t *tables, unsigned long number, const uint8_t record[FINISH_RECORD_BYTES],
                             const struct options *o)
{
    uint32_t answer = finish_step(tables, FINISH_TABLES_BYTES, record, FINISH_RECORD_BYTES);
    if (is_fault(answer))
        return say_fault(number, answer, record[0]);
    show_step(number, record, answer);
    if (answer == FINISH_DONE && !o->quiet)
        show_tables(tables);
    return STATUS_OK;
}

/* How a schedule ended: at its end, in the middle of a record, or where it could not be read on. */
static enum status end_of_schedule(FILE *schedule, unsigned long number, size_t length)
{
    fflush(stdout);
    if (ferror(schedule)) {
        fprintf(stderr, "rack: record %lu cannot be read: %s\n", number, strerror(errno));
        return STATUS_INPUT;
    }
    if (length != 0) {
        fprintf(stderr, "rack: record %lu is short: %zu of %d bytes\n", number, length, FINISH_RECORD_BYTES);
        return STATUS_INPUT;
    }
    return STATUS_OK;
}

static enum status play(uint8_t *tables, FILE *schedule, const struct options *o)
{
    uint8_t record[FINISH_RECORD_BYTES];
    for (unsigned long number = 1;; number++) {
        size_t length = fread(record, 1, sizeof record, schedule);
        if (length != sizeof record)
            return end_of_schedule(schedule, number, length);
        enum status status = take_step(tables, number, record, o);
        if (status != STATUS_OK)
            return status;
    }
}

/* The reading entries: what the core itself says of the session. */
static enum status show_readings(const uint8_t *tables)
{
    const uint32_t running = finish_running_tasks(tables, FINISH_TABLES_BYTES);
    const uint32_t status = finish_status(tables, FINISH_TABLES_BYTES, 1);
    const uint32_t messages = finish_messages_in_flight(tables, FINISH_TABLES_BYTES);
    const uint32_t quiet = finish_quiet(tables, FINISH_TABLES_BYTES);
    if (running == FINISH_NO_READING || status == FINISH_NO_READING || messages == FINISH_NO_READING
        || quiet == FINISH_NO_READING) {
        fflush(stdout);
        fputs("rack: the tables are not read: a fault of this host\n", stderr);
        return STATUS_FAULT;
    }
    printf("running tasks: %lu\n", (unsigned long)running);
    printf("finish 1: %s\n", words_finish_status(status));
    printf("messages in flight: %lu\n", (unsigned long)messages);
    printf("quiet: %s\n", quiet == 1 ? "yes" : "no");
    return STATUS_OK;
}

/* A schedule that breaks off leaves the session as its last whole record did, so its end is shown all the same. */
static enum status run(FILE *schedule, const struct options *o)
{
    static uint8_t tables[FINISH_TABLES_BYTES];
    enum status begun = begin_session(tables, o);
    if (begun != STATUS_OK)
        return begun;
    if (!o->quiet)
        show_tables(tables);
    enum status played = play(tables, schedule, o);
    if (played == STATUS_FAULT)
        return played;
    if (o->quiet)
        show_tables(tables);
    enum status shown = show_readings(tables);
    return shown != STATUS_OK ? shown : played;
}

static enum status open_and_run(const struct options *o)
{
    FILE *schedule = o->schedule == NULL ? stdin : fopen(o->schedule, "rb");
    if (schedule == NULL) {
        fprintf(stderr, "rack: %s: %s\n", o->schedule, strerror(errno));
        return STATUS_INPUT;
    }
    enum status status = run(schedule, o);
    if (schedule != stdin)
        fclose(schedule);
    return status;
}

int main(int argc, char **argv)
{
    struct options o = {.places = 3};
    if (!read_options(argc, argv, &o)) {
        fputs(usage, stderr);
        return STATUS_USAGE;
    }
    enum status status = open_and_run(&o);
    if (fflush(stdout) != 0 && status == STATUS_OK) {
        fprintf(stderr, "rack: standard output: %s\n", strerror(errno));
        status = STATUS_INPUT;
    }
    return (int)status;
}
