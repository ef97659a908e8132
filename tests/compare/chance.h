/* Repeatable chance: one seed gives one run, on any machine. */
#ifndef COMPARE_CHANCE_H
#define COMPARE_CHANCE_H

#include <stdbool.h>
#include <stdint.h>

struct chance {
    uint64_t state;
};

/* splitmix64: every 64-bit state is as good as another, so any seed will do. */
static inline uint64_t chance_next(struct chance *c)
{
    uint64_t z = c->state += UINT64_C(0x9E3779B97F4A7C15);
    z = (z ^ z >> 30) * UINT64_C(0xBF58476D1CE4E5B9);
    z = (z ^ z >> 27) * UINT64_C(0x94D049BB133111EB);
    return z ^ z >> 31;
}

/* A number below n, which is not 0. */
static inline unsigned chance_below(struct chance *c, unsigned n)
{
    return (unsigned)((chance_next(c) >> 32) * n >> 32);
}

static inline unsigned chance_between(struct chance *c, unsigned least, unsigned most)
{
    return least + chance_below(c, most - least + 1);
}

/* True once in n. */
static inline bool chance_once_in(struct chance *c, unsigned n)
{
    return chance_below(c, n) == 0;
}

static inline uint8_t chance_byte(struct chance *c)
{
    return (uint8_t)(chance_next(c) >> 56);
}

#endif
