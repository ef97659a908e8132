/* The invariant: store books. */
#include "invariant.h"

/* A present book has status 1, 2, 3 or 5; an active finish has a book exactly when it is published. */
bool invariant_K1(const struct session *s, const struct census *c)
{
    (void)c;
    for (unsigned f = 1; f <= s->made.finishes; f++) {
        const struct finish *finish = &s->finish[f];
        const bool present = is_present(&s->book[f]);
        if (present && finish->status == RELEASED)
            return false;
        if (finish->status == ACTIVE && present != (finish->published == 1))
            return false;
    }
    return true;
}

/* Total above 0 or some ghost. */
bool invariant_K2(const struct session *s, const struct census *c)
{
    (void)c;
    for (unsigned f = 1; f <= s->made.finishes; f++)
        if (is_present(&s->book[f]) && second_book_is_spent(&s->book[f]))
            return false;
    return true;
}

static bool some_dead_column_is_not_zero(const struct session *s, const struct book *book)
{
    for (unsigned p = 0; p < s->made.places; p++)
        if (is_dead(s, p) && !second_column_is_zero(book, p))
            return true;
    return false;
}

/* Adopt due: some dead place's column is not all 0. */
bool invariant_K3(const struct session *s, const struct census *c)
{
    (void)c;
    for (unsigned f = 1; f <= s->made.finishes; f++) {
        const struct book *book = &s->book[f];
        if (is_present(book) && book->adopt_due != 0 && !some_dead_column_is_not_zero(s, book))
            return false;
    }
    return true;
}

static bool parent_is_right(const struct session *s, unsigned f)
{
    const struct book *book = &s->book[f];
    unsigned q = book->parent;
    if (q != 0 && !is_present(&s->book[q]))
        return false;
    if (!is_dead(s, s->finish[f].home))
        return book->adopted == 0;
    return q != 0 && (book->adopted == 1 ? has_ghost(&s->book[q], f) : s->book[q].adopt_due == 1);
}

/* A book's parent has a book; a dead home's book is adopted by it, or will be. */
bool invariant_K4(const struct session *s, const struct census *c)
{
    (void)c;
    for (unsigned f = 1; f <= s->made.finishes; f++)
        if (is_present(&s->book[f]) && !parent_is_right(s, f))
            return false;
    return true;
}

static bool chain_is_right(const struct session *s, unsigned f)
{
    const struct finish *finish = &s->finish[f];
    uint8_t expected = is_dead(s, finish->home) ? FINISH_LOST : ACTIVE;
    unsigned between = finish->parent;
    for (; between != 0 && between != s->book[f].parent; between = s->finish[between].parent) {
        const struct finish *ancestor = &s->finish[between];
        if (ancestor->home != finish->home || ancestor->published != 0 || is_present(&s->book[between])
            || ancestor->status != expected)
            return false;
    }
    return between == s->book[f].parent;
}

/* Every finish strictly between f and its book's parent is unpublished, at f's home, active or lost with it. */
bool invariant_K5(const struct session *s, const struct census *c)
{
    (void)c;
    for (unsigned f = 1; f <= s->made.finishes; f++)
        if (is_present(&s->book[f]) && !chain_is_right(s, f))
            return false;
    return true;
}

/* A live home's column in the parent's book is not all 0. */
bool invariant_K6(const struct session *s, const struct census *c)
{
    (void)c;
    for (unsigned f = 1; f <= s->made.finishes; f++) {
        unsigned q = s->book[f].parent, home = s->finish[f].home;
        if (is_present(&s->book[f]) && q != 0 && is_alive(s, home) && second_column_is_zero(&s->book[q], home))
            return false;
    }
    return true;
}
