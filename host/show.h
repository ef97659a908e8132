/* What somebody at the bench sees: a line a step and the session as small tables, at most 78 columns wide. */
#ifndef RACK_SHOW_H
#define RACK_SHOW_H

#include "../include/finish.h"

#include <stdint.h>

/* "3 deliver slot 0: done", or the refusal with its number and words. */
void show_step(unsigned long number, const uint8_t record[FINISH_RECORD_BYTES], uint32_t answer);

/* Tasks, finishes, open books and messages in flight. */
void show_tables(const uint8_t tables[FINISH_TABLES_BYTES]);

#endif
