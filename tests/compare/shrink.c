#include "shrink.h"

#include "names.h"

#include <stdio.h>
#include <string.h>
#include <time.h>

/* Enough for most schedules; what is shortest by then is printed. */
enum { MAX_SECONDS = 8 };

struct shrinking {
    struct schedule *schedule;
    uint8_t start[TABLES_LEN];
    const struct fault *fault;
    struct checks checks;
    unsigned tries;
    time_t until;
};

static bool has_time(const struct shrinking *sh)
{
    return time(NULL) < sh->until;
}

static bool is_same_fault(const struct fault *a, const struct fault *b)
{
    if (a->kind != b->kind)
        return false;
    return a->name == NULL || b->name == NULL ? a->name == b->name : strcmp(a->name, b->name) == 0;
}

/* Runs the records. True where they fail in the wanted way; then failed_at is after how many of them. */
static bool still_fails(struct shrinking *sh, const uint8_t *start, uint8_t (*records)[RECORD_LEN], size_t count,
                        size_t *failed_at)
{
    static struct pair pair;
    struct fault f = {.kind = FAULT_NONE};
    size_t n = 0;
    sh->tries++;
    pair.coverage = NULL;
    pair_start(&pair, start);
    if (sh->checks.readings)
        f = pair_readings(start, start, TABLES_LEN);
    while (n < count && f.kind == FAULT_NONE)
        f = pair_take(&pair, records[n++], sh->checks);
    *failed_at = n;
    return is_same_fault(&f, sh->fault);
}

static bool drop_records(struct shrinking *sh, size_t first, size_t many)
{
    static uint8_t left[SCHEDULE_MAX][RECORD_LEN];
    struct schedule *schedule = sh->schedule;
    size_t after = schedule->count - first - many, failed_at;
    memcpy(left, schedule->record, first * RECORD_LEN);
    memcpy(left + first, schedule->record + first + many, after * RECORD_LEN);
    if (!still_fails(sh, sh->start, left, first + after, &failed_at))
        return false;
    schedule->count = failed_at;
    memcpy(schedule->record, left, failed_at * RECORD_LEN);
    return true;
}

/* Tries to drop each run of so many records, from the end on: late records are needed least. */
static bool drop_runs(struct shrinking *sh, size_t many)
{
    bool dropped_some = false;
    for (size_t first = sh->schedule->count; first > 0 && has_time(sh);) {
        size_t len = first < many ? first : many;
        first -= len;
        /* A drop may have made the schedule fail earlier, and so cut it. */
        if (first + len <= sh->schedule->count && drop_records(sh, first, len))
            dropped_some = true;
    }
    return dropped_some;
}

static void shrink_records(struct shrinking *sh)
{
    bool dropped_some = true;
    while (dropped_some && has_time(sh)) {
        dropped_some = false;
        for (size_t many = sh->schedule->count / 2 + 1; many >= 1; many /= 2)
            dropped_some |= drop_runs(sh, many);
    }
}

static bool is_zero_from(const uint8_t *bytes, size_t len)
{
    for (size_t n = 0; n < len; n++)
        if (bytes[n] != 0)
            return false;
    return true;
}

static void shrink_start(struct shrinking *sh)
{
    uint8_t tried[TABLES_LEN];
    size_t failed_at;
    for (size_t many = TABLES_LEN / 2; many >= 1; many /= 2)
        for (size_t first = 0; first < TABLES_LEN && has_time(sh); first += many) {
            size_t len = first + many < TABLES_LEN ? many : TABLES_LEN - first;
            memcpy(tried, sh->start, TABLES_LEN);
            memset(tried + first, 0, len);
            if (!is_zero_from(sh->start + first, len)
                && still_fails(sh, tried, sh->schedule->record, sh->schedule->count, &failed_at))
                memcpy(sh->start, tried, TABLES_LEN);
        }
}

static void print_start(const uint8_t *start)
{
    char where[128];
    printf("start tables, all bytes 0 but:\n");
    for (size_t n = 0; n < TABLES_LEN; n++)
        if (start[n] != 0) {
            names_byte(where, sizeof where, n);
            printf("  %s = %u\n", where, start[n]);
        }
}

static void print_records(const struct schedule *schedule)
{
    printf("echo ");
    for (size_t n = 0; n < schedule->count; n++)
        for (size_t i = 0; i < RECORD_LEN; i++)
            printf("%02x", schedule->record[n][i]);
    printf(" | xxd -r -p\n");
}

void shrink_and_print(struct schedule *schedule, const uint8_t *start, const struct fault *fault,
                      struct checks checks)
{
    struct shrinking sh
        = {.schedule = schedule, .fault = fault, .checks = checks, .until = time(NULL) + MAX_SECONDS};
    sh.checks.readings = fault->kind == FAULT_READING;
    if (start != NULL)
        memcpy(sh.start, start, TABLES_LEN);
    shrink_records(&sh);
    shrink_start(&sh);
    printf("shrunk to %zu records, in %u tries\n", schedule->count, sh.tries);
    if (!is_zero_from(sh.start, TABLES_LEN))
        print_start(sh.start);
    else
        printf("from zero tables, for the replay program:\n");
    print_records(schedule);
}
