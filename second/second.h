/* The second program: document 01 read once more, in C, sharing nothing with the core.
 *
 * It is what the core is compared with (tests/compare), and it is right on any bytes and any lengths.
 * A pointer may be NULL where its length is 0. */
#ifndef SECOND_H
#define SECOND_H

#include <stddef.h>
#include <stdint.h>

/* What a reading entry answers when the tables have a wrong length. */
#define SECOND_NO_ANSWER UINT32_C(0xFFFFFFFF)

/* Takes one record on the tables. Answers 0, or a refusal number with every byte as it was. */
uint32_t second_step(uint8_t *tables, size_t tables_len, const uint8_t *record, size_t record_len);

/* Begins a session of 2 to 8 places, whatever the tables held. Answers 0, 7 or 2. */
uint32_t second_begin(uint8_t *tables, size_t tables_len, uint32_t places);

/* How many of the made tasks run. */
uint32_t second_running_tasks(const uint8_t *tables, size_t tables_len);

/* How many slots are full. */
uint32_t second_messages_in_flight(const uint8_t *tables, size_t tables_len);

/* The status byte in the row of finish 1 to 32, made or not; 0 for any other number. */
uint32_t second_finish_status(const uint8_t *tables, size_t tables_len, uint32_t finish);

/* 1 when no message is in flight, no present book is under repair and none has a count owed; else 0. */
uint32_t second_quiet(const uint8_t *tables, size_t tables_len);

#endif
