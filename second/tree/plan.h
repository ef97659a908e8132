/* What one line of standard input asks of the driver of request #101. */
#ifndef SECOND_TREE_PLAN_H
#define SECOND_TREE_PLAN_H

#include <stdbool.h>
#include <stdio.h>

struct plan {
    unsigned levels, width, places, victim, kill_step;
};

/* Reads the first line of the input, up to its newline or the end; false where the line is to be refused. */
bool read_plan(FILE *in, struct plan *plan);

#endif
