/* Chance from a seed.  Each file that includes this has a chance of its own. */
#ifndef ORACLE_CHANCE_H
#define ORACLE_CHANCE_H

#include <stdbool.h>
#include <stdint.h>

static uint64_t chance_state; /* set it to the seed */

/* splitmix64 */
static inline uint64_t chance(void)
{
    uint64_t z = chance_state += 0x9E3779B97F4A7C15u;

    z = (z ^ z >> 30) * 0xBF58476D1CE4E5B9u;
    z = (z ^ z >> 27) * 0x94D049BB133111EBu;
    return z ^ z >> 31;
}

static inline uint32_t below(uint32_t limit)
{
    return (uint32_t)((chance() >> 32) * limit >> 32);
}

static inline int32_t between(int32_t low, int32_t high)
{
    return low + (int32_t)below((uint32_t)(high - low) + 1);
}

static inline bool percent(uint32_t share)
{
    return below(100) < share;
}

#define ONE_OF(array) ((array)[below(sizeof(array) / sizeof((array)[0]))])

#endif
