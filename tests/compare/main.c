/* Compares the core with the second program, and tries the promises of demand 3, on random schedules. */
#include "../../second/second.h"
#include "damage.h"
#include "demand3.h"
#include "invariant.h"
#include "lengths.h"
#include "shrink.h"

#include <inttypes.h>
#include <stdio.h>
#include <stdlib.h>
#include <string.h>
#include <time.h>

struct options {
    uint64_t seed, records;
    unsigned seconds; /* 0: as many records as asked for; else as many as there is time for */
    bool compare;
    bool coverage; /* whether missing coverage fails the run */
};

/* Kept apart from the stack for their size. */
static struct pair pair;
static struct schedule schedule, damaged_schedule;
static struct coverage reached, other;

static const char usage[] = "compare [--seed N] [--records N] [--seconds N] [--short] [--without-compare]\n"
                            "  --records N         how many records at least (1000000)\n"
                            "  --seconds N         for so long instead\n"
                            "  --short             do not fail for what was not reached\n"
                            "  --without-compare   only the core: what the invariant and demand 3 find by themselves\n";

static bool read_options(int argc, char **argv, struct options *o)
{
    for (int n = 1; n < argc; n++) {
        bool has_value = n + 1 < argc;
        if (strcmp(argv[n], "--without-compare") == 0)
            o->compare = false;
        else if (strcmp(argv[n], "--short") == 0)
            o->coverage = false;
        else if (strcmp(argv[n], "--seed") == 0 && has_value)
            o->seed = strtoull(argv[++n], NULL, 0);
        else if (strcmp(argv[n], "--records") == 0 && has_value)
            o->records = strtoull(argv[++n], NULL, 0);
        else if (strcmp(argv[n], "--seconds") == 0 && has_value)
            o->seconds = (unsigned)strtoul(argv[++n], NULL, 0);
        else
            return false;
    }
    return true;
}

static double now_in_seconds(void)
{
    struct timespec t;
    timespec_get(&t, TIME_UTC);
    return (double)t.tv_sec + (double)t.tv_nsec / 1e9;
}

/* The tables somewhere on the way of a schedule that passed. */
static void tables_on_the_way(uint8_t *tables, struct chance *c)
{
    size_t records = 1 + chance_below(c, (unsigned)schedule.count);
    memset(tables, 0, TABLES_LEN);
    for (size_t n = 0; n < records; n++)
        second_step(tables, TABLES_LEN, schedule.record[n], RECORD_LEN);
}

static bool fails(struct schedule *of, const uint8_t *start, struct fault f, struct checks checks)
{
    if (f.kind == FAULT_NONE)
        return false;
    printf("FAILED after %" PRIu64 " records, at record %zu of a schedule: ", reached.records + other.records + 1,
           of->count);
    fault_print(&f);
    shrink_and_print(of, start, &f, checks);
    return true;
}

static bool readings_fail(const uint8_t *start, struct checks checks)
{
    damaged_schedule.count = 0;
    return fails(&damaged_schedule, start, pair_readings(start, start, TABLES_LEN), checks);
}

/* Damages a base in so many ways, and takes at most so many records on each. */
static bool damage_fails(void (*damage)(uint8_t *, struct chance *), const uint8_t *base, unsigned times,
                         unsigned most_records, struct chance *c, struct checks checks)
{
    uint8_t start[TABLES_LEN];
    pair.coverage = &other;
    for (unsigned n = 0; n < times; n++) {
        memcpy(start, base, TABLES_LEN);
        damage(start, c);
        if (readings_fail(start, checks)
            || (most_records != 0
                && fails(&damaged_schedule, start,
                         damage_run(start, most_records, &pair, c, &damaged_schedule, checks), checks)))
            return true;
    }
    return false;
}

/* Tables that no begin leads to: near the schedule that just ran, any sound ones and near those, and any at all. */
static bool other_tables_fail(struct chance *c, struct checks checks)
{
    uint8_t on_the_way[TABLES_LEN], sound[TABLES_LEN];
    tables_on_the_way(on_the_way, c);
    damage_sound(sound, c);
    return damage_fails(damage_some, on_the_way, 12, 8, c, checks)
        || damage_fails(damage_sound, sound, 12, 8, c, checks)
        || damage_fails(damage_edge, on_the_way, 10, 1, c, checks)
        || damage_fails(damage_edge, sound, 40, 1, c, checks)
        || damage_fails(damage_still, sound, 4, 0, c, checks)
        || damage_fails(damage_arbitrary, sound, 1, 8, c, checks);
}

static bool schedules_fail(const struct options *o, struct chance *c)
{
    struct checks checks = {.compare = o->compare, .invariant = true};
    double end = now_in_seconds() + o->seconds;
    for (uint64_t sessions = 0;; sessions++) {
        if (o->seconds != 0 ? now_in_seconds() >= end : reached.records + other.records >= o->records) {
            printf("%" PRIu64 " sessions from a begin\n", sessions);
            return false;
        }
        checks.readings = sessions % 4 == 0;
        pair.coverage = &reached;
        if (fails(&schedule, NULL, sessions_run(&pair, c, &schedule, checks), checks))
            return true;
        checks.readings = true;
        if (o->compare && other_tables_fail(c, checks))
            return true;
    }
}

static bool lengths_fail(void)
{
    struct lengths_met met = {0};
    struct fault f = lengths_run(&met);
    if (f.kind != FAULT_NONE) {
        printf("FAILED on lengths and numbers of places: ");
        fault_print(&f);
    }
    printf("wrong and right lengths: %" PRIu64 " steps and %" PRIu64 " begins, %" PRIu64 " of them refused 7; %" PRIu64
           " times the reading entries\n",
           met.steps, met.begins, met.refused, met.readings);
    return f.kind != FAULT_NONE || met.refused == 0;
}

static void print_promises(void)
{
    printf("invariant, after every taken step from a begin: each of %u conjuncts tested %" PRIu64 " times\n ",
           invariant_conjunct_count, invariant_tested());
    for (unsigned n = 0; n < invariant_conjunct_count; n++)
        printf(" %s;", invariant_conjuncts[n].name);
    printf("\ndemand 3, where there was something to test: R %" PRIu64 " times, Q %" PRIu64 " (%" PRIu64
           " with a book open), P %" PRIu64 "\n",
           demand3_met.released, demand3_met.quiet, demand3_met.quiet_with_open_book,
           demand3_met.quiet_and_none_runs);
}

static unsigned demand3_misses(void)
{
    bool all_met = demand3_met.released != 0 && demand3_met.quiet_with_open_book != 0
        && demand3_met.quiet_and_none_runs != 0;
    return all_met ? 0 : 1;
}

int main(int argc, char **argv)
{
    struct options o = {.seed = 1, .records = 1000000, .compare = true, .coverage = true};
    if (!read_options(argc, argv, &o)) {
        fputs(usage, stderr);
        return 2;
    }
    printf("seed %" PRIu64 "\n", o.seed);
    struct chance chance = {o.seed};
    double start = now_in_seconds();
    if ((o.compare && lengths_fail()) || schedules_fail(&o, &chance))
        return 1;
    unsigned misses = coverage_print(&reached, "on tables from a begin", true);
    if (o.compare)
        misses += coverage_print(&other, "on tables that no begin leads to", false);
    printf("reading entries: compared %" PRIu64 " times, %" PRIu64 " of them quiet\n", readings_met.compared,
           readings_met.quiet);
    print_promises();
    misses += demand3_misses();
    double seconds = now_in_seconds() - start;
    uint64_t records = reached.records + other.records;
    printf("%" PRIu64 " records in %.1f s, %.0f a second; no difference", records, seconds, (double)records / seconds);
    printf(misses == 0 ? "; all reached that must be\n" : "; %u NOT REACHED\n", misses);
    return misses != 0 && o.coverage;
}
