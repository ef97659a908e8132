/* The line of request #101: read, tested and, where it is no plan, refused. */
#include "plan.h"

#include "../session.h"

#include <string.h>

/* Room for "5 3 8 7 65535", the longest plan, for one byte more, which tells that a line is longer, and for the 0. */
enum { ROOM = 13 + 1 + 1 };

/* The first line without its newline, as many of its bytes as there is room for, as a string: false where a byte 0
 * stands in it. */
static bool read_line(FILE *in, char line[ROOM])
{
    size_t length = 0;
    for (int byte; length < ROOM - 1 && (byte = getc(in)) != EOF && byte != '\n'; length++)
        line[length] = (char)byte;
    line[length] = '\0';
    return strlen(line) == length;
}

/* "Exactly five decimal numbers separated by single spaces": digits and spaces are read with no care for how the
 * numbers are written, and the line must be what they are when printed. */
static bool is_five_numbers(const char *line, struct plan *p)
{
    char printed[64];
    if (line[strspn(line, "0123456789 ")] != '\0'
        || sscanf(line, "%1u %1u %1u %1u %5u", &p->levels, &p->width, &p->places, &p->victim, &p->kill_step) != 5)
        return false;
    snprintf(printed, sizeof printed, "%u %u %u %u %u", p->levels, p->width, p->places, p->victim, p->kill_step);
    return strcmp(line, printed) == 0;
}

/* "Levels (1 to 5), width (1 to 4), places (2 to 8), a victim (below places) and a kill step (0 to 65,535)." */
static bool is_in_range(const struct plan *p)
{
    return p->levels >= 1 && p->levels <= 5 && p->width >= 1 && p->width <= 4 && p->places >= 2
        && p->places <= MAX_PLACES && p->victim < p->places && p->kill_step <= 65535;
}

/* Each level has width times the tasks of the one above it. */
static unsigned tasks_of_tree(const struct plan *p)
{
    unsigned tasks = 0, of_level = 1;
    for (unsigned level = 1; level <= p->levels; level++, of_level *= p->width)
        tasks += of_level;
    return tasks;
}

bool read_plan(FILE *in, struct plan *plan)
{
    char line[ROOM];
    return read_line(in, line) && is_five_numbers(line, plan) && is_in_range(plan) && tasks_of_tree(plan) <= MAX_TASKS;
}
