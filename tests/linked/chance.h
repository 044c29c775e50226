/* Chance from a seed, the same on every machine: splitmix64. A draw stands in a statement of its own where there are several, since C
 * leaves their order within an expression open. */
#ifndef LINKED_CHANCE_H
#define LINKED_CHANCE_H

#include <stdbool.h>
#include <stdint.h>

struct chance {
    uint64_t state;
};

static inline uint64_t draw(struct chance *chance)
{
    chance->state += UINT64_C(0x9e3779b97f4a7c15);
    uint64_t mixed = chance->state;
    mixed = (mixed ^ (mixed >> 30)) * UINT64_C(0xbf58476d1ce4e5b9);
    mixed = (mixed ^ (mixed >> 27)) * UINT64_C(0x94d049bb133111eb);
    return mixed ^ (mixed >> 31);
}

/* From 0 up to the one below the bound. */
static inline uint32_t below(struct chance *chance, uint32_t bound)
{
    return (uint32_t)((draw(chance) >> 32) * bound >> 32);
}

static inline bool one_in(struct chance *chance, uint32_t count)
{
    return below(chance, count) == 0;
}

/* Both ends included; they are less than 2^32 apart. */
static inline int64_t between(struct chance *chance, int64_t low, int64_t high)
{
    uint64_t count = (uint64_t)(high - low) + 1;
    return low + (int64_t)((draw(chance) >> 32) * count >> 32);
}

#define PICK(chance, array) ((array)[below((chance), sizeof(array) / sizeof *(array))])

#endif
