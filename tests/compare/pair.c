#include "pair.h"

#include "../../second/second.h"
#include "../../include/finish.h"
#include "demand3.h"
#include "invariant.h"
#include "names.h"

#include <inttypes.h>
#include <stdio.h>
#include <string.h>

void pair_start(struct pair *p, const uint8_t *tables)
{
    if (tables == NULL)
        memset(p->core, 0, TABLES_LEN);
    else
        memcpy(p->core, tables, TABLES_LEN);
    memcpy(p->second, p->core, TABLES_LEN);
    second_load(&p->now, p->core);
    p->begun = false;
    p->released = 0;
}

static size_t first_difference(const uint8_t *a, const uint8_t *b)
{
    size_t n = 0;
    while (n < TABLES_LEN && a[n] == b[n])
        n++;
    return n;
}

struct readings_met readings_met;

static struct fault reading_fault(const char *name, uint32_t core, uint32_t second)
{
    if (core == second)
        return (struct fault){.kind = FAULT_NONE};
    return (struct fault){.kind = FAULT_READING, .name = name, .core = core, .second = second};
}

struct fault pair_readings(const uint8_t *core, const uint8_t *second, size_t len)
{
    static const uint32_t far_numbers[] = {255, 256, 257, 288, UINT32_C(0x80000001), UINT32_C(0xFFFFFFFF)};
    struct fault f
        = reading_fault("running_tasks", finish_running_tasks(core, len), second_running_tasks(second, len));
    if (f.kind == FAULT_NONE)
        f = reading_fault("messages_in_flight", finish_messages_in_flight(core, len),
                          second_messages_in_flight(second, len));
    readings_met.compared++;
    readings_met.quiet += second_quiet(second, len) == 1;
    if (f.kind == FAULT_NONE)
        f = reading_fault("quiet", finish_quiet(core, len), second_quiet(second, len));
    for (uint32_t n = 0; n <= MAX_FINISHES + 1 && f.kind == FAULT_NONE; n++)
        f = reading_fault("status", finish_status(core, len, n), second_finish_status(second, len, n));
    for (unsigned n = 0; n < sizeof far_numbers / sizeof far_numbers[0] && f.kind == FAULT_NONE; n++)
        f = reading_fault("status", finish_status(core, len, far_numbers[n]),
                          second_finish_status(second, len, far_numbers[n]));
    return f;
}

static struct fault compare_step(struct pair *p, const uint8_t record[RECORD_LEN], uint32_t core)
{
    uint32_t second = second_step(p->second, TABLES_LEN, record, RECORD_LEN);
    if (core != second)
        return (struct fault){.kind = FAULT_ANSWER, .core = core, .second = second};
    if (memcmp(p->core, p->second, TABLES_LEN) != 0)
        return (struct fault){
            .kind = FAULT_BYTES, .core = core, .second = second, .byte = first_difference(p->core, p->second)};
    return (struct fault){.kind = FAULT_NONE};
}

static struct fault test_promises(struct pair *p, const uint8_t record[RECORD_LEN])
{
    if (record[0] == BEGIN)
        p->released = 0;
    const char *name = invariant_broken(&p->now);
    if (name != NULL)
        return (struct fault){.kind = FAULT_INVARIANT, .name = name};
    name = demand3_broken(&p->now, p->released);
    if (name != NULL)
        return (struct fault){.kind = FAULT_DEMAND3, .name = name};
    p->released = demand3_released(&p->now);
    return (struct fault){.kind = FAULT_NONE};
}

struct fault pair_take(struct pair *p, const uint8_t record[RECORD_LEN], struct checks checks)
{
    struct fault f = {.kind = FAULT_NONE};
    p->was = p->now;
    memcpy(p->before, p->core, TABLES_LEN);
    uint32_t answer = finish_step(p->core, TABLES_LEN, record, RECORD_LEN);
    if (checks.compare)
        f = compare_step(p, record, answer);
    if (f.kind != FAULT_NONE)
        return f;
    if (answer != DONE && memcmp(p->core, p->before, TABLES_LEN) != 0)
        return (struct fault){
            .kind = FAULT_KEPT, .core = answer, .second = answer, .byte = first_difference(p->core, p->before)};
    if (p->begun && (answer == UNSOUND || answer == NOT_WANTED))
        return (struct fault){.kind = FAULT_UNREACHED, .core = answer, .second = answer};
    if (answer == DONE) {
        second_load(&p->now, p->core);
        p->begun |= record[0] == BEGIN;
        if (p->begun && checks.invariant)
            f = test_promises(p, record);
    }
    if (f.kind == FAULT_NONE && p->coverage != NULL)
        coverage_count(p->coverage, &p->was, &p->now, (struct action){record[0], record[1], record[2], record[3]},
                       answer);
    if (f.kind == FAULT_NONE && checks.compare && checks.readings)
        f = pair_readings(p->core, p->second, TABLES_LEN);
    return f;
}

void fault_print(const struct fault *f)
{
    char where[128];
    names_byte(where, sizeof where, f->byte);
    switch (f->kind) {
    case FAULT_NONE:
        break;
    case FAULT_ANSWER:
        printf("compare: the core answers %" PRIu32 ", the second program %" PRIu32 "\n", f->core, f->second);
        break;
    case FAULT_BYTES:
        printf("compare: both answer %" PRIu32 ", and the tables differ first at %s\n", f->core, where);
        break;
    case FAULT_KEPT:
        printf("compare: refusal %" PRIu32 " changed the tables, first at %s\n", f->core, where);
        break;
    case FAULT_READING:
        printf("compare: reading entry %s: the core %" PRIu32 ", the second program %" PRIu32 "\n", f->name, f->core,
               f->second);
        break;
    case FAULT_UNREACHED:
        printf("answer %" PRIu32 " on tables that started at a begin\n", f->core);
        break;
    case FAULT_INVARIANT:
        printf("invariant: %s is broken\n", f->name);
        break;
    case FAULT_DEMAND3:
        printf("demand 3: %s is broken\n", f->name);
        break;
    }
}
