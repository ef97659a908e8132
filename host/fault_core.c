/* Stands in for the core in test.sh: every step gets the answer ANSWER. On tables from a begin the core itself never
 * gives 7, 8 or 9, so what the host does then cannot be tried with it. */
#include "../include/finish.h"

uint32_t finish_step(uint8_t *tables, size_t tables_len, const uint8_t *record, size_t record_len)
{
    (void)tables, (void)tables_len, (void)record, (void)record_len;
    return ANSWER;
}

uint32_t finish_begin(uint8_t *tables, size_t tables_len, uint32_t places)
{
    (void)tables, (void)tables_len, (void)places;
    return FINISH_DONE;
}

uint32_t finish_running_tasks(const uint8_t *tables, size_t tables_len)
{
    (void)tables, (void)tables_len;
    return FINISH_NO_READING;
}

uint32_t finish_messages_in_flight(const uint8_t *tables, size_t tables_len)
{
    return finish_running_tasks(tables, tables_len);
}

uint32_t finish_status(const uint8_t *tables, size_t tables_len, uint32_t finish)
{
    (void)finish;
    return finish_running_tasks(tables, tables_len);
}

uint32_t finish_quiet(const uint8_t *tables, size_t tables_len)
{
    return finish_running_tasks(tables, tables_len);
}
