/* Case A of document 01 and its list 'Both sides of each edge', on the second program alone. */
#include "../../second/second.h"
#include "../../second/session.h"

#include <inttypes.h>
#include <stdio.h>
#include <string.h>

static uint8_t tables[TABLES_LEN];
static struct session session;
static unsigned failures, tests;

static void expect(const char *what, uint32_t found, uint32_t wanted)
{
    tests++;
    if (found == wanted)
        return;
    failures++;
    printf("FAILED %s: %" PRIu32 ", not %" PRIu32 "\n", what, found, wanted);
}

/* Takes a record and expects the answer; the session is then what the tables hold. */
static void step(const char *what, unsigned kind, unsigned a, unsigned b, unsigned c, uint32_t wanted)
{
    const uint8_t record[RECORD_LEN] = {(uint8_t)kind, (uint8_t)a, (uint8_t)b, (uint8_t)c};
    expect(what, second_step(tables, sizeof tables, record, sizeof record), wanted);
    second_load(&session, tables);
}

static void begin(unsigned places)
{
    memset(tables, 0, sizeof tables);
    step("begin", BEGIN, places, 0, 0, DONE);
}

static void deliver_times(const char *what, unsigned slot, unsigned times)
{
    for (unsigned n = 0; n < times; n++)
        step(what, DELIVER, slot, 0, 0, DONE);
}

/* Records 1 to 7 of case A: task 2 of finish 1 runs at place 1. */
static void case_a_through_7(void)
{
    begin(3);
    step("A, spawn", SPAWN, 1, 1, 0, DONE);
    deliver_times("A, deliver", 0, 5);
}

static void expect_end(const char *what, uint32_t running, uint32_t status, uint32_t messages)
{
    expect(what, second_running_tasks(tables, sizeof tables), running);
    expect(what, second_finish_status(tables, sizeof tables, 1), status);
    expect(what, second_messages_in_flight(tables, sizeof tables), messages);
}

static void test_case_a(void)
{
    case_a_through_7();
    step("A, end 1", END, 1, 0, 0, DONE);
    step("A, its report", DELIVER, 0, 0, 0, DONE);
    step("A, end 2", END, 2, 0, 0, DONE);
    deliver_times("A, report and release", 0, 2);
    expect_end("A, end", 0, RELEASED, 0);
    expect("A, quiet", second_quiet(tables, sizeof tables), 1);
}

static void test_begin(void)
{
    step("begin 1", BEGIN, 1, 0, 0, NOT_MADE);
    step("begin 9", BEGIN, 9, 0, 0, NOT_MADE);
    begin(2);
    begin(8);
    step("end task 1", END, 1, 0, 0, DONE);
    expect_end("released with no message", 0, RELEASED, 0);
}

static unsigned total(const struct book *book)
{
    unsigned sum = 0;
    for (unsigned i = 0; i < MAX_PLACES; i++)
        for (unsigned j = 0; j < MAX_PLACES; j++)
            sum += book->live[i][j];
    return sum;
}

static void test_cancel_after_adopt(void)
{
    case_a_through_7();
    step("kill 1", KILL, 1, 0, 0, DONE);
    step("cancel before adopt", CANCEL, 1, 1, 0, NOT_READY);
    step("adopt", ADOPT, 1, 0, 0, DONE);
    step("adopt again", ADOPT, 1, 0, 0, NOT_READY);
    step("cancel", CANCEL, 1, 1, 0, DONE);
    expect("total after cancel", total(&session.book[1]), 1);
    step("cancel again", CANCEL, 1, 1, 0, NOT_READY);
}

static void test_held_report(void)
{
    case_a_through_7();
    step("kill 1", KILL, 1, 0, 0, DONE);
    step("end task 1", END, 1, 0, 0, DONE);
    step("held report", DELIVER, 0, 0, 0, HELD);
    step("adopt", ADOPT, 1, 0, 0, DONE);
    step("still held", DELIVER, 0, 0, 0, HELD);
    step("cancel", CANCEL, 1, 1, 0, DONE);
    deliver_times("report and release", 0, 2);
    expect_end("released after a loss", 0, RELEASED, 0);
}

/* Task 2 at place 1 spawns to place 2; place 1 is lost after so many delivers of that spawn's messages. */
static void lose_place_1_after(unsigned delivers)
{
    case_a_through_7();
    step("task 2 spawns", SPAWN, 2, 2, 0, DONE);
    deliver_times("its messages", 0, delivers);
    step("kill 1", KILL, 1, 0, 0, DONE);
    step("adopt", ADOPT, 1, 0, 0, DONE);
    step("ask under repair", ASK, 1, 1, 2, HELD);
    step("cancel", CANCEL, 1, 1, 0, DONE);
}

static void test_ask(void)
{
    lose_place_1_after(1);
    expect("the granted message vanished", second_messages_in_flight(tables, sizeof tables), 0);
    expect("owed, so not quiet", second_quiet(tables, sizeof tables), 0);
    step("ask", ASK, 1, 1, 2, DONE);
    step("ask again", ASK, 1, 1, 2, NOT_READY);
    step("count-dropped", DELIVER, 0, 0, 0, DONE);
    expect("reply", session.slot[0].tag, DROPPED_COUNT);
    expect("one dropped", session.slot[0].number, 1);
    step("dropped", DELIVER, 0, 0, 0, DONE);
    expect("total", total(&session.book[1]), 1);
    step("ask of a 0 cell", ASK, 1, 1, 2, NOT_READY);

    lose_place_1_after(3);
    step("ask", ASK, 1, 1, 2, DONE);
    step("count-dropped", DELIVER, 0, 0, 0, DONE);
    expect("none dropped", session.slot[0].number, 0);
}

/* The task message is still on its way when the count is asked for, and is not let in. */
static void test_denied_task(void)
{
    lose_place_1_after(2);
    expect("task message in slot 0", session.slot[0].tag, TASK);
    step("ask", ASK, 1, 1, 2, DONE);
    step("count-dropped", DELIVER, 1, 0, 0, DONE);
    expect("one dropped", session.slot[1].number, 1);
    step("late task", DELIVER, 0, 0, 0, DONE);
    expect("still on the wire", session.task[3].status, ON_THE_WIRE);
    expect("not received", session.local[1][2].received[1], 0);
}

static void test_kills_and_slots(void)
{
    begin(3);
    step("kill 0", KILL, 0, 0, 0, WRONG_PLACE);
    step("kill 1", KILL, 1, 0, 0, DONE);
    step("kill 1 twice", KILL, 1, 0, 0, WRONG_PLACE);
    step("kill of no place", KILL, 3, 0, 0, NOT_MADE);
    step("empty slot", DELIVER, 0, 0, 0, NOT_READY);
    step("slot 127", DELIVER, 127, 0, 0, NOT_READY);
    step("slot 128", DELIVER, 128, 0, 0, NOT_MADE);
    step("spawn to a dead place", SPAWN, 1, 1, 0, DONE);
    deliver_times("publish, published, transit", 0, 3);
    expect("denied", session.slot[0].tag, DENIED);
    step("denied", DELIVER, 0, 0, 0, DONE);
    expect("dropped", session.task[2].status, DROPPED);
    expect("the spawner runs", session.task[1].status, RUNNING);
}

static void test_255_tasks(void)
{
    begin(2);
    for (unsigned n = 2; n <= MAX_TASKS; n++) {
        step("spawn below the limit", SPAWN, 1, 1, 0, DONE);
        deliver_times("its messages", 0, n == 2 ? 5 : 3);
    }
    expect("tasks made", session.made.tasks, MAX_TASKS);
    step("the 256th task", SPAWN, 1, 1, 0, FULL);
    step("its main task", OPEN, 1, 0, 0, FULL);
}

static void test_129_messages(void)
{
    begin(2);
    step("spawn", SPAWN, 1, 1, 0, DONE);
    deliver_times("publish to granted", 0, 4);
    for (unsigned n = 1; n < SLOTS; n++) {
        step("spawn", SPAWN, 1, 1, 0, DONE);
        expect("lowest empty slot", session.slot[n].tag, TRANSIT);
        deliver_times("transit and granted", n, 2);
    }
    expect("messages", second_messages_in_flight(tables, sizeof tables), SLOTS);
    step("the 129th message", SPAWN, 1, 1, 0, FULL);
    step("a report needs one too", END, 1, 0, 0, FULL);
    step("deliver empties", DELIVER, 5, 0, 0, DONE);
    step("spawn again", SPAWN, 1, 1, 0, DONE);
    expect("the slot is used again", session.slot[5].tag, TRANSIT);
    step("a reply takes its own slot", DELIVER, 5, 0, 0, DONE);
    expect("granted", session.slot[5].tag, GRANTED);
}

static void test_32_finishes(void)
{
    begin(2);
    for (unsigned n = 1; n < MAX_FINISHES; n++)
        step("open", OPEN, n, 0, 0, DONE);
    step("the 33rd finish", OPEN, MAX_FINISHES, 0, 0, FULL);
}

/* Place 1 has two nested finishes, the outer unpublished: the inner's book is under finish 1. */
static void test_far_parent(void)
{
    case_a_through_7();
    step("open 2", OPEN, 2, 0, 0, DONE);
    step("open 3", OPEN, 3, 0, 0, DONE);
    step("spawn from 3", SPAWN, 4, 2, 0, DONE);
    step("publish", DELIVER, 0, 0, 0, DONE);
    expect("direct parent", session.finish[3].parent, 2);
    expect("recorded parent", session.book[3].parent, 1);
}

static void test_before_any_begin(void)
{
    memset(tables, 0, sizeof tables);
    expect_end("no input", 0, 0, 0);
    step("spawn before any begin", SPAWN, 1, 1, 0, UNSOUND);
    expect_end("nothing changed", 0, 0, 0);
}

static void test_lengths_and_numbers(void)
{
    const uint8_t spawn[RECORD_LEN] = {SPAWN, 1, 1, 0};
    expect("no tables", second_step(NULL, 0, spawn, RECORD_LEN), WRONG_LENGTH);
    expect("no record", second_step(tables, TABLES_LEN, NULL, 0), WRONG_LENGTH);
    expect("begin on no tables", second_begin(NULL, 0, 2), WRONG_LENGTH);
    expect("begin 258", second_begin(tables, TABLES_LEN, 258), NOT_MADE);
    expect("running tasks", second_running_tasks(NULL, 0), SECOND_NO_ANSWER);
    expect("messages in flight", second_messages_in_flight(tables, TABLES_LEN - 1), SECOND_NO_ANSWER);
    expect("finish status", second_finish_status(NULL, 0, 1), SECOND_NO_ANSWER);
    expect("quiet", second_quiet(NULL, 0), SECOND_NO_ANSWER);
    begin(2);
    expect("status of finish 0", second_finish_status(tables, TABLES_LEN, 0), 0);
    expect("status of finish 33", second_finish_status(tables, TABLES_LEN, 33), 0);
    step("kind 0", 0, 0, 0, 0, NO_SUCH_RECORD);
    step("kind 10", 10, 0, 0, 0, NO_SUCH_RECORD);
    step("stray operand before all else", SPAWN, 1, 9, 1, NO_SUCH_RECORD);
    step("stray operand of a begin", BEGIN, 9, 1, 0, NO_SUCH_RECORD);
}

int main(void)
{
    test_case_a();
    test_begin();
    test_cancel_after_adopt();
    test_held_report();
    test_ask();
    test_denied_task();
    test_kills_and_slots();
    test_255_tasks();
    test_129_messages();
    test_32_finishes();
    test_far_parent();
    test_before_any_begin();
    test_lengths_and_numbers();
    printf("second program: case A and the edges, %u tests, %u failed\n", tests, failures);
    return failures != 0;
}
