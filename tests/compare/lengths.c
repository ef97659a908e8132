#include "lengths.h"

#include "../../second/second.h"
#include "../../include/finish.h"

#include <stdlib.h>
#include <string.h>

static const size_t table_lengths[]
    = {0, 1, 4, 8, TABLES_LEN - 8, TABLES_LEN - 1, TABLES_LEN, TABLES_LEN + 1, TABLES_LEN + 8, 2 * TABLES_LEN};
enum { TABLE_LENGTHS = sizeof table_lengths / sizeof table_lengths[0], RECORD_LENGTHS = 9 };

/* As much of a begun session as fits; NULL for no bytes. */
static uint8_t *tables_of(size_t len)
{
    if (len == 0)
        return NULL;
    uint8_t begun[TABLES_LEN];
    second_begin(begun, TABLES_LEN, 3);
    uint8_t *tables = calloc(len, 1);
    if (tables == NULL)
        abort();
    memcpy(tables, begun, len < TABLES_LEN ? len : TABLES_LEN);
    return tables;
}

/* A spawn that would be taken, cut or drawn out. */
static uint8_t *record_of(size_t len)
{
    static const uint8_t spawn[RECORD_LEN] = {SPAWN, 1, 1, 0};
    if (len == 0)
        return NULL;
    uint8_t *record = calloc(len, 1);
    if (record == NULL)
        abort();
    memcpy(record, spawn, len < RECORD_LEN ? len : RECORD_LEN);
    return record;
}

static struct fault same(uint32_t core, uint32_t second, const uint8_t *a, const uint8_t *b, size_t len)
{
    if (core != second)
        return (struct fault){.kind = FAULT_ANSWER, .core = core, .second = second};
    for (size_t n = 0; n < len; n++)
        if (a[n] != b[n])
            return (struct fault){.kind = FAULT_BYTES, .core = core, .second = second, .byte = n};
    return (struct fault){.kind = FAULT_NONE};
}

static struct fault try_step(size_t len, size_t record_len, struct lengths_met *met)
{
    uint8_t *core = tables_of(len), *second = tables_of(len), *record = record_of(record_len);
    uint32_t core_answer = finish_step(core, len, record, record_len);
    uint32_t second_answer = second_step(second, len, record, record_len);
    struct fault f = same(core_answer, second_answer, core, second, len);
    met->steps++;
    met->refused += second_answer == WRONG_LENGTH;
    free(core);
    free(second);
    free(record);
    return f;
}

static struct fault try_begin(size_t len, uint32_t places, struct lengths_met *met)
{
    uint8_t *core = tables_of(len), *second = tables_of(len);
    uint32_t core_answer = finish_begin(core, len, places), second_answer = second_begin(second, len, places);
    struct fault f = same(core_answer, second_answer, core, second, len);
    met->begins++;
    met->refused += second_answer == WRONG_LENGTH;
    free(core);
    free(second);
    return f;
}

static struct fault try_readings(size_t len, struct lengths_met *met)
{
    uint8_t *tables = tables_of(len);
    struct fault f = pair_readings(tables, tables, len);
    met->readings++;
    free(tables);
    return f;
}

static struct fault try_begins(size_t len, struct lengths_met *met)
{
    static const uint32_t far_numbers[]
        = {511, 512, 514, 520, 65538, UINT32_C(0x80000002), UINT32_C(0xFFFFFF02), UINT32_C(0xFFFFFFFF)};
    struct fault f = {.kind = FAULT_NONE};
    for (uint32_t places = 0; places <= 300 && f.kind == FAULT_NONE; places++)
        f = try_begin(len, places, met);
    for (unsigned n = 0; n < sizeof far_numbers / sizeof far_numbers[0] && f.kind == FAULT_NONE; n++)
        f = try_begin(len, far_numbers[n], met);
    return f;
}

struct fault lengths_run(struct lengths_met *met)
{
    struct fault f = {.kind = FAULT_NONE};
    for (unsigned n = 0; n < TABLE_LENGTHS && f.kind == FAULT_NONE; n++) {
        f = try_readings(table_lengths[n], met);
        for (size_t record_len = 0; record_len < RECORD_LENGTHS && f.kind == FAULT_NONE; record_len++)
            f = try_step(table_lengths[n], record_len, met);
        if (f.kind == FAULT_NONE)
            f = try_begins(table_lengths[n], met);
    }
    return f;
}
