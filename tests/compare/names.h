/* What a byte of the tables is, in words. */
#ifndef COMPARE_NAMES_H
#define COMPARE_NAMES_H

#include <stddef.h>

/* Writes for instance "row 5, byte 3: task 5, status". */
void names_byte(char *out, size_t out_len, size_t byte);

#endif
