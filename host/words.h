/* The numbers of document 01 in its own words. */
#ifndef RACK_WORDS_H
#define RACK_WORDS_H

#include "../include/finish.h"

#include <stddef.h>
#include <stdint.h>

/* Each answers "?" for a number that the document does not have. */
const char *words_task_status(unsigned status);
const char *words_finish_status(unsigned status);
const char *words_tag(unsigned tag);

/* Why a record of this kind got this refusal, 1 to 9. */
const char *words_refusal(uint32_t answer, unsigned kind);

/* A record in words, "deliver slot 0"; in hex where it is no action. */
void words_record(char *out, size_t out_len, const uint8_t record[FINISH_RECORD_BYTES], uint32_t answer);

#endif
