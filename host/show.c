#include "show.h"

#include "layout.h"
#include "words.h"

#include <stdbool.h>
#include <stdio.h>
#include <string.h>

enum { COLUMNS = 78 };

/* Statuses of a task that is through: it is counted and not listed. */
enum { TASK_DROPPED = 4, TASK_ENDED = 7, TASK_LOST = 8 };

/* The reason goes below where the line would be too long. */
void show_step(unsigned long number, const uint8_t record[FINISH_RECORD_BYTES], uint32_t answer)
{
    char action[64];
    words_record(action, sizeof action, record, answer);
    int columns = printf("%lu %s: ", number, action);
    if (answer == FINISH_DONE) {
        puts("done");
        return;
    }
    const char *why = words_refusal(answer, record[0]);
    columns += printf("refused %u,", (unsigned)answer);
    printf("%s%s\n", (size_t)columns + 1 + strlen(why) <= COLUMNS ? " " : "\n    ", why);
}

static const char *yes_or_no(uint8_t mark)
{
    return mark == 1 ? "yes" : "no";
}

/* A number, or a dash where the field names nothing. */
static void show_number(int width, unsigned number, bool is_there)
{
    if (is_there)
        printf("%*u", width, number);
    else
        printf("%*s", width, "-");
}

static bool task_is_through(unsigned status)
{
    return status == TASK_ENDED || status == TASK_LOST || status == TASK_DROPPED;
}

/* The opener or spawner is in the column 'by'; a main task is marked. */
static void show_task(unsigned t, const uint8_t *row)
{
    printf("  %4u  %-17s  %4u  %2u  %6u", t, words_task_status(row[TASK_STATUS]), row[TASK_FROM], row[TASK_AT],
           row[TASK_FINISH]);
    show_number(5, row[TASK_SPAWNER], row[TASK_SPAWNER] != 0);
    puts(row[TASK_SENT] == 0 ? "  main" : "");
}

static void show_tasks(const uint8_t *tables)
{
    unsigned count[256] = {0};
    puts("  task  status             from  at  finish   by");
    for (unsigned t = 1; t <= tables[MADE_TASKS]; t++) {
        const uint8_t *row = row_of_task(tables, t);
        count[row[TASK_STATUS]]++;
        if (!task_is_through(row[TASK_STATUS]))
            show_task(t, row);
    }
    printf("  other tasks: %u ended, %u lost, %u dropped\n", count[TASK_ENDED], count[TASK_LOST], count[TASK_DROPPED]);
}

static void show_finishes(const uint8_t *tables)
{
    unsigned released = 0;
    puts("  finish  status             home  parent  published");
    for (unsigned f = 1; f <= finishes_made(tables); f++) {
        const uint8_t *row = row_of_finish(tables, f);
        if (row[STATUS_OF_FINISH] == FINISH_STATUS_RELEASED) {
            released++;
            continue;
        }
        printf("  %6u  %-17s  %4u", f, words_finish_status(row[STATUS_OF_FINISH]), row[HOME_OF_FINISH]);
        show_number(8, row[PARENT_OF_FINISH], row[PARENT_OF_FINISH] != 0);
        printf("  %s\n", yes_or_no(row[PUBLISHED_OF_FINISH]));
    }
    printf("  other finishes: %u released\n", released);
}

/* "The live counts are an eight by eight square; its sum is the total (not stored)." */
static unsigned total_of(const uint8_t *book)
{
    unsigned total = 0;
    for (unsigned cell = 0; cell < MAX_PLACES * MAX_PLACES; cell++)
        total += book[BOOK_LIVE + cell];
    return total;
}

/* A book may have more ghosts than one line holds; the next line begins below the first ghost. */
static void show_ghosts(const uint8_t *book, int first_column)
{
    int column = first_column;
    for (unsigned g = 1; g <= MAX_FINISHES; g++) {
        if (!has_ghost(book, g))
            continue;
        if (column + 3 > COLUMNS) {
            printf("\n%*s", first_column, "");
            column = first_column;
        }
        column += printf(" %u", g);
    }
    puts(column == first_column ? " -" : "");
}

static void show_books(const uint8_t *tables)
{
    bool any = false;
    for (unsigned f = 1; f <= finishes_made(tables); f++) {
        const uint8_t *book = book_of(tables, f);
        if (book[BOOK_PRESENT] == 0)
            continue;
        if (!any)
            puts("  book  total  due  adopted  ghosts");
        any = true;
        int column = printf("  %4u  %5u  %-3s  %-7s ", f, total_of(book), yes_or_no(book[BOOK_ADOPT_DUE]),
                            yes_or_no(book[BOOK_ADOPTED]));
        show_ghosts(book, column);
    }
    if (!any)
        puts("  no open book");
}

/* "1 and 2 name the waiting task; 3 to 6 the task, its from and its at as to; 7 has the reporter as from; 10 and 11 the
 * dead place as from, the live one as to." Number is the ghost of a 9, the sent count of a 10, the dropped of an 11. */
static void show_message(unsigned s, const uint8_t *row)
{
    const unsigned tag = row[SLOT_TAG];
    const bool travels = tag >= 3 && tag <= 6, counts = tag >= 10;
    printf("  %4u  %-13s  %6u", s, words_tag(tag), row[SLOT_FINISH]);
    show_number(6, row[SLOT_TASK], tag <= 6);
    show_number(6, row[SLOT_FROM], travels || counts || tag == 7);
    show_number(4, row[SLOT_TO], travels || counts);
    show_number(8, row[SLOT_NUMBER], tag >= 9);
    putchar('\n');
}

static void show_messages(const uint8_t *tables)
{
    bool any = false;
    for (unsigned s = 0; s < SLOTS; s++) {
        const uint8_t *row = rows_of_slot(tables, s);
        if (row[SLOT_TAG] == 0)
            continue;
        if (!any)
            puts("  slot  tag            finish  task  from  to  number");
        any = true;
        show_message(s, row);
    }
    if (!any)
        puts("  no message in flight");
}

static void show_places(const uint8_t *tables)
{
    printf("  places: %u; dead:", tables[MADE_PLACES]);
    for (unsigned p = 0; p < MAX_PLACES; p++)
        if (tables[MADE_DEAD] >> p & 1)
            printf(" %u", p);
    puts(tables[MADE_DEAD] == 0 ? " none" : "");
}

void show_tables(const uint8_t tables[FINISH_TABLES_BYTES])
{
    show_places(tables);
    show_tasks(tables);
    show_finishes(tables);
    show_books(tables);
    show_messages(tables);
    putchar('\n');
}
