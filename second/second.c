/* The entries of the second program. A step loads the tables, tests the refusals in the order of document 01, changes
 * its copy and stores it whole; refused, it stores nothing. */
#include "second.h"
#include "session.h"

#include <string.h>

/* The operands "that must be 0": those the table of action records shows as 0. */
static bool has_a_stray_operand(struct action act)
{
    switch (act.kind) {
    case SPAWN:
    case CANCEL:
        return act.c != 0;
    case ASK:
        return false;
    default:
        return act.b != 0 || act.c != 0;
    }
}

/* 1: "kind not 1 to 9, or an operand that must be 0 is not". */
static bool is_no_such_record(struct action act)
{
    return act.kind < SPAWN || act.kind > BEGIN || has_a_stray_operand(act);
}

uint32_t second_step(uint8_t *tables, size_t tables_len, const uint8_t *record, size_t record_len)
{
    if (tables_len != TABLES_LEN || record_len != RECORD_LEN)
        return WRONG_LENGTH;
    const struct action act = {record[0], record[1], record[2], record[3]};
    if (is_no_such_record(act))
        return NO_SUCH_RECORD;
    if (act.kind == BEGIN)
        return second_begin(tables, tables_len, act.a);

    struct session s;
    second_load(&s, tables);
    if (!second_is_sound(&s))
        return UNSOUND;
    uint32_t answer = second_refusal(&s, act);
    if (answer == DONE)
        answer = second_take(&s, act);
    if (answer == DONE)
        second_store(&s, tables);
    return answer;
}

/* "Begin clears all; task 1 runs at place 0 as main task of finish 1, active." */
uint32_t second_begin(uint8_t *tables, size_t tables_len, uint32_t places)
{
    if (tables_len != TABLES_LEN)
        return WRONG_LENGTH;
    if (places < 2 || places > MAX_PLACES)
        return NOT_MADE;
    const struct made made = {.places = (uint8_t)places, .tasks = 1, .finishes = 1};
    const struct task task = {.finish = 1, .status = RUNNING};
    const struct finish finish = {.status = ACTIVE, .main_task = 1};
    memset(tables, 0, TABLES_LEN);
    memcpy(tables, &made, sizeof made);
    memcpy(tables + TASKS_AT, &task, sizeof task);
    memcpy(tables + FINISHES_AT, &finish, sizeof finish);
    return DONE;
}

uint32_t second_running_tasks(const uint8_t *tables, size_t tables_len)
{
    if (tables_len != TABLES_LEN)
        return SECOND_NO_ANSWER;
    struct session s;
    second_load(&s, tables);
    uint32_t running = 0;
    for (unsigned t = 1; t <= s.made.tasks; t++)
        running += s.task[t].status == RUNNING;
    return running;
}

uint32_t second_messages_in_flight(const uint8_t *tables, size_t tables_len)
{
    if (tables_len != TABLES_LEN)
        return SECOND_NO_ANSWER;
    struct session s;
    second_load(&s, tables);
    uint32_t full = 0;
    for (unsigned n = 0; n < SLOTS; n++)
        full += s.slot[n].tag != EMPTY;
    return full;
}

uint32_t second_finish_status(const uint8_t *tables, size_t tables_len, uint32_t finish)
{
    if (tables_len != TABLES_LEN)
        return SECOND_NO_ANSWER;
    if (finish < 1 || finish > MAX_FINISHES)
        return 0;
    struct session s;
    second_load(&s, tables);
    return s.finish[finish].status;
}

uint32_t second_quiet(const uint8_t *tables, size_t tables_len)
{
    if (tables_len != TABLES_LEN)
        return SECOND_NO_ANSWER;
    struct session s;
    second_load(&s, tables);
    return second_is_quiet(&s);
}
