/* Nanoseconds a step of the core and of the second program, on the same schedules in one run. */
#include "../include/finish.h"
#include "../second/second.h"
#include "chains.h"
#include "clock.h"

#include <stdio.h>
#include <stdlib.h>
#include <string.h>

enum { MAX_REPEATS = 1001, ROWS = 11 };

/* A ratio of the core to the second program above this is not accepted. */
static const double most_accepted = 1.25;

struct options {
    bool emulated;
    unsigned repeats;
};

struct measured {
    double least, median, most;
};

static const char usage[] = "usage: bench [--emulated] [--repeats N]\n"
                            "  --emulated   say that it runs under an emulator\n"
                            "  --repeats N  of each row, 1 to 1001 (101)\n";

static bool read_options(int argc, char **argv, struct options *o)
{
    for (int n = 1; n < argc; n++) {
        if (strcmp(argv[n], "--emulated") == 0)
            o->emulated = true;
        else if (strcmp(argv[n], "--repeats") == 0 && n + 1 < argc)
            o->repeats = (unsigned)strtoul(argv[++n], NULL, 10);
        else
            return false;
    }
    return o->repeats >= 1 && o->repeats <= MAX_REPEATS;
}

static int compare_times(const void *a, const void *b)
{
    const double x = *(const double *)a, y = *(const double *)b;
    return (x > y) - (x < y);
}

static struct measured summary(double *times, unsigned count)
{
    qsort(times, count, sizeof *times, compare_times);
    return (struct measured){.least = times[0], .median = times[count / 2], .most = times[count - 1]};
}

/* Core and second program take turns, so that what slows the machine for a while slows both. One run of each comes
 * first and is not counted. */
static void measure(const struct row *row, unsigned repeats, struct measured *core, struct measured *second)
{
    static double core_times[MAX_REPEATS], second_times[MAX_REPEATS];
    clock_row(finish_step, row);
    clock_row(second_step, row);
    for (unsigned n = 0; n < repeats; n++) {
        core_times[n] = clock_row(finish_step, row);
        second_times[n] = clock_row(second_step, row);
    }
    *core = summary(core_times, repeats);
    *second = summary(second_times, repeats);
}

static void print_measured(const struct row *row, unsigned repeats)
{
    struct measured core, second;
    measure(row, repeats, &core, &second);
    const double ratio = core.median / second.median;
    printf("%-18s %8.1f %8.1f %8.1f  %8.1f %8.1f %8.1f  %5.2f%s\n", row->name, core.median, core.least, core.most,
           second.median, second.least, second.most, ratio, ratio > most_accepted ? " over" : "");
    fflush(stdout);
}

/* What is in each row, by kind of record. */
static void print_kinds(const struct row *row)
{
    static const enum kind order[] = {SPAWN, OPEN, END, DELIVER, KILL, ADOPT, CANCEL, ASK, BEGIN, 0};
    printf("%-18s", row->name);
    for (unsigned n = 0; n < sizeof order / sizeof order[0]; n++)
        printf(" %7u", row->kinds[order[n]]);
    putchar('\n');
}

/* The model name, where the machine tells it. */
static void print_machine(void)
{
    char line[512];
    FILE *file = fopen("/proc/cpuinfo", "r");
    const char *model = NULL;
    while (file != NULL && model == NULL && fgets(line, sizeof line, file) != NULL)
        if (strncmp(line, "model name", strlen("model name")) == 0)
            model = strstr(line, ": ");
    if (file != NULL)
        fclose(file);
    printf("machine: %.*s\n", model == NULL ? 7 : (int)strcspn(model + 2, "\n"), model == NULL ? "unknown" : model + 2);
}

static void print_compiler(void)
{
#ifdef __clang__
    printf("compiler of the second program and of the harness: %s, -O2\n", __VERSION__);
#else
    printf("compiler of the second program and of the harness: gcc %s, -O2\n", __VERSION__);
#endif
}

static void prepare(struct row rows[ROWS])
{
    chains_small(&rows[0]);
    chains_filling(&rows[1]);
    chains_full(&rows[2]);
    chains_repair(&rows[3]);
    chains_refusals(&rows[4]);
    for (uint32_t answer = 1; answer <= 6; answer++)
        chains_refused(&rows[4 + answer], answer);
}

int main(int argc, char **argv)
{
    static struct row rows[ROWS];
    struct options o = {.repeats = 101};
    if (!read_options(argc, argv, &o)) {
        fputs(usage, stderr);
        return 2;
    }
    print_machine();
    print_compiler();
    printf("emulator: %s\n", o.emulated ? "yes, so the times are no measure of the core" : "no");
    prepare(rows);
    puts("\nrecords by kind, 'none' for what is no action");
    puts("                     spawn    open     end deliver    kill   adopt  cancel     ask   begin    none");
    for (unsigned n = 0; n < ROWS; n++)
        print_kinds(&rows[n]);
    printf("\nnanoseconds a step: medians of %u repeats, core and second program in turn\n", o.repeats);
    printf("%-18s %8s %8s %8s  %8s %8s %8s  %5s\n", "", "core", "min", "max", "second", "min", "max", "ratio");
    for (unsigned n = 0; n < ROWS; n++)
        print_measured(&rows[n], o.repeats);
    return 0;
}
