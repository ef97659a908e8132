/*
 * The finish core: what a host lends it, what it answers, and what it promises.
 *
 * Every entry takes any bytes, any lengths and any numbers, and returns. It keeps nothing between calls, uses no heap and
 * writes nothing but the tables it is lent. Calls on different tables may run at the same time; calls on the same tables may
 * not. A pointer may be null only where its length is 0, and no two buffers of one call may overlap.
 *
 * Proved, for every input: each answer and every byte of the tables after a call are those of document 01's rules. What is in
 * this file is checked by the compiler of the host alone.
 */
#ifndef FINISH_H
#define FINISH_H

#include <stddef.h>
#include <stdint.h>

#ifdef __cplusplus
extern "C" {
#endif

/* The session tables, in bytes, and an action record: kind, a, b, c. */
#define FINISH_TABLES_BYTES 15104
#define FINISH_RECORD_BYTES 4

/* Kinds of action records; an operand that is not named here must be 0. */
#define FINISH_SPAWN 1   /* a: task, b: place */
#define FINISH_OPEN 2    /* a: task */
#define FINISH_END 3     /* a: task */
#define FINISH_DELIVER 4 /* a: slot */
#define FINISH_KILL 5    /* a: place */
#define FINISH_ADOPT 6   /* a: finish */
#define FINISH_CANCEL 7  /* a: finish, b: dead place */
#define FINISH_ASK 8     /* a: finish, b: dead place, c: live place */
#define FINISH_BEGIN 9   /* a: places, 2 to 8 */

/* Answers of finish_step and finish_begin: done, or the first refusal that applies, in this order. */
#define FINISH_DONE 0
#define FINISH_WRONG_LENGTH 7 /* the tables are not 15,104 bytes, or the record is not 4 */
#define FINISH_NO_ACTION 1    /* kind not 1 to 9, or an operand that must be 0 is not */
#define FINISH_UNSOUND 8      /* a field of the tables breaks its range; never on tables that a begin led to */
#define FINISH_NOT_THERE 2    /* task or finish not made, place not in the session, slot above 127, begin outside 2 to 8 */
#define FINISH_WRONG_PLACE 3  /* own place spawned to; place 0 or a dead place killed; place alive or dead where it must not be */
#define FINISH_NOT_READY 4    /* task not running, slot empty, book absent, nothing to adopt, cancel or ask for */
#define FINISH_MUST_WAIT 5    /* the book is under repair: the message is held, the ask has to wait */
#define FINISH_NO_ROOM 6      /* 255 tasks, 32 finishes or 128 messages already, and one more is needed */
#define FINISH_UNWANTED 9     /* a wanted status is not found, or a count would leave 0 to 255; never on tables that a begin led to */

/* Statuses of a finish, as finish_status reads them; 0 is a finish that was not made. */
#define FINISH_STATUS_ACTIVE 1
#define FINISH_STATUS_PUBLISHING 2
#define FINISH_STATUS_WAITS 3
#define FINISH_STATUS_RELEASED 4
#define FINISH_STATUS_LOST 5

/* What every reading entry answers where the tables are not 15,104 bytes. */
#define FINISH_NO_READING UINT32_C(4294967295)

/*
 * Takes the step that a record asks for. Answers FINISH_DONE, and the tables are those that the rules give; or a refusal, and
 * every byte of the tables is as it was.
 */
uint32_t finish_step(uint8_t *tables, size_t tables_len, const uint8_t *record, size_t record_len);

/*
 * Begins a session of so many places: all is cleared, and task 1 runs at place 0 as the main task of finish 1. The tables may
 * hold anything before. Any number but 2 to 8 is refused with FINISH_NOT_THERE, and every byte is as it was.
 */
uint32_t finish_begin(uint8_t *tables, size_t tables_len, uint32_t places);

/* How many made tasks run, 0 to 255. */
uint32_t finish_running_tasks(const uint8_t *tables, size_t tables_len);

/* How many messages are in flight: full slots, 0 to 128. */
uint32_t finish_messages_in_flight(const uint8_t *tables, size_t tables_len);

/* The status byte in the row of a finish, 1 to 32; 0 for any other number. */
uint32_t finish_status(const uint8_t *tables, size_t tables_len, uint32_t finish);

/* 1 where the session is quiet: no message in flight, no book under repair, no count owed; else 0. */
uint32_t finish_quiet(const uint8_t *tables, size_t tables_len);

#ifdef __cplusplus
}
#endif

#endif
