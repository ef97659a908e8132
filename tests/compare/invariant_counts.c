/* The invariant: cells of present books, and local books. */
#include "invariant.h"

#include <string.h>

/* What the conjuncts on cells say of one cell (i, j) of a present book f: i, j below the place count, j alive. */
struct cell {
    unsigned f, i, j;
    unsigned live, sent, received, reported, q7, c4, c6, n10, n11, number10, number11;
    bool asked, denied;
};

typedef bool cell_law(const struct session *s, const struct cell *cell);

static struct cell cell_of(const struct session *s, const struct census *c, unsigned f, unsigned i, unsigned j)
{
    const struct book *book = &s->book[f];
    const struct local_book *local = &s->local[f][j];
    return (struct cell){.f = f,
                         .i = i,
                         .j = j,
                         .live = book->live[i][j],
                         .sent = book->sent[i][j],
                         .received = local->received[i],
                         .reported = local->reported[i],
                         .q7 = c->q7[f][i][j],
                         .c4 = c->c4[f][i][j],
                         .c6 = c->c6[f][i][j],
                         .n10 = c->n10[f][i][j],
                         .n11 = c->n11[f][i][j],
                         .number10 = c->number10[f][i][j],
                         .number11 = c->number11[f][i][j],
                         .asked = was_asked(book, i, j),
                         .denied = has_bit(local->deny, i)};
}

static bool each_cell(const struct session *s, const struct census *c, cell_law *holds)
{
    for (unsigned f = 1; f <= s->made.finishes; f++) {
        if (!is_present(&s->book[f]))
            continue;
        for (unsigned j = 0; j < s->made.places; j++)
            for (unsigned i = 0; i < s->made.places && is_alive(s, j); i++) {
                struct cell cell = cell_of(s, c, f, i, j);
                if (!holds(s, &cell))
                    return false;
            }
    }
    return true;
}

/* Rows and columns at or above the place count are 0; a pair is asked only of a dead sender. */
static bool bounds_hold(const struct session *s, const struct book *book)
{
    for (unsigned i = 0; i < MAX_PLACES; i++) {
        if (book->asked[i] != 0 && !is_dead(s, i))
            return false;
        for (unsigned j = 0; j < MAX_PLACES; j++)
            if ((i >= s->made.places || j >= s->made.places) && (book->live[i][j] != 0 || book->sent[i][j] != 0))
                return false;
    }
    return true;
}

bool invariant_cells_bounds(const struct session *s, const struct census *c)
{
    (void)c;
    for (unsigned f = 1; f <= s->made.finishes; f++)
        if (is_present(&s->book[f]) && !bounds_hold(s, &s->book[f]))
            return false;
    return true;
}

static bool own_cell_holds(const struct session *s, const struct cell *cell)
{
    const struct finish *finish = &s->finish[cell->f];
    if (cell->i != cell->j)
        return true;
    if (cell->received != 0 || cell->reported != 0)
        return false;
    if (cell->j != finish->home)
        return cell->live == 0 && cell->sent == 0 && cell->q7 == 0;
    if (is_at_work(&s->task[finish->main_task]))
        return cell->sent == 1 && cell->live == 1 && cell->q7 == 0;
    return cell->sent == 1 && cell->live == cell->q7;
}

bool invariant_cells_own(const struct session *s, const struct census *c)
{
    return each_cell(s, c, own_cell_holds);
}

/* What was sent is live, or was reported and not only on its way. */
static bool is_balanced(const struct cell *cell)
{
    return cell->live + cell->reported == cell->sent + cell->q7;
}

static bool live_sender_cell_holds(const struct session *s, const struct cell *cell)
{
    if (cell->i == cell->j || !is_alive(s, cell->i))
        return true;
    return !cell->asked && !cell->denied && is_balanced(cell) && cell->sent == cell->received + cell->c4 + cell->c6;
}

bool invariant_cells_live_sender(const struct session *s, const struct census *c)
{
    return each_cell(s, c, live_sender_cell_holds);
}

static bool unasked_cell_holds(const struct session *s, const struct cell *cell)
{
    if (!is_dead(s, cell->i) || cell->asked)
        return true;
    return !cell->denied && cell->n10 == 0 && cell->n11 == 0 && is_balanced(cell)
        && cell->received + cell->c6 <= cell->sent;
}

bool invariant_cells_not_asked(const struct session *s, const struct census *c)
{
    return each_cell(s, c, unasked_cell_holds);
}

static bool asked_cell_holds(const struct session *s, const struct cell *cell)
{
    if (!is_dead(s, cell->i) || !cell->asked)
        return true;
    if (cell->n10 == 1 && cell->n11 == 0)
        return cell->number10 == cell->sent && !cell->denied && is_balanced(cell)
            && cell->received + cell->c6 <= cell->sent;
    if (cell->n10 == 0 && cell->n11 == 1)
        return cell->number11 + cell->received == cell->sent && cell->denied && is_balanced(cell);
    return cell->n10 == 0 && cell->n11 == 0 && cell->denied && cell->live + cell->reported == cell->received + cell->q7;
}

bool invariant_cells_asked(const struct session *s, const struct census *c)
{
    return each_cell(s, c, asked_cell_holds);
}

/* Live is the number of sent tasks there, running or blocked; at a dead place the local book is 0. */
bool invariant_L1(const struct session *s, const struct census *c)
{
    static const struct local_book nothing;
    for (unsigned f = 1; f <= s->made.finishes; f++)
        for (unsigned j = 0; j < MAX_PLACES; j++) {
            const struct local_book *local = &s->local[f][j];
            if (is_alive(s, j) ? local->live != c->at_work[f][j] : memcmp(local, &nothing, sizeof nothing) != 0)
                return false;
        }
    return true;
}

static bool reports_hold(const struct local_book *local)
{
    for (unsigned i = 0; i < MAX_PLACES; i++)
        if (local->reported[i] > local->received[i])
            return false;
    bool all_reported = memcmp(local->reported, local->received, sizeof local->reported) == 0;
    return all_reported == (local->live == 0);
}

/* Reported is at most received; live is 0 exactly when all is reported. */
bool invariant_L2(const struct session *s, const struct census *c)
{
    (void)c;
    for (unsigned f = 1; f <= s->made.finishes; f++)
        for (unsigned j = 0; j < s->made.places; j++)
            if (!reports_hold(&s->local[f][j]))
                return false;
    return true;
}

/* A denied sender is a dead session place. */
bool invariant_L3(const struct session *s, const struct census *c)
{
    (void)c;
    for (unsigned f = 1; f <= s->made.finishes; f++)
        for (unsigned j = 0; j < s->made.places; j++)
            if ((s->local[f][j].deny & ~s->made.dead) != 0)
                return false;
    return true;
}

/* No book: nobody of that finish is at work anywhere but at its home as main task. */
bool invariant_C(const struct session *s, const struct census *c)
{
    (void)c;
    for (unsigned f = 1; f <= s->made.finishes; f++)
        for (unsigned j = 0; j < s->made.places && !is_present(&s->book[f]); j++)
            if (s->local[f][j].live != 0)
                return false;
    return true;
}
