/* Repeatable random numbers: a case's numbers depend only on seed, family and index. */
#ifndef RANDOM_H
#define RANDOM_H

#include <stdbool.h>
#include <stdint.h>

struct random {
    uint64_t state;
};

static inline uint64_t random_mix(uint64_t z)
{
    z = (z ^ z >> 30) * UINT64_C(0xBF58476D1CE4E5B9);
    z = (z ^ z >> 27) * UINT64_C(0x94D049BB133111EB);
    return z ^ z >> 31;
}

static inline uint64_t random_next(struct random *r)
{
    r->state += UINT64_C(0x9E3779B97F4A7C15);
    return random_mix(r->state);
}

static inline struct random random_for(uint64_t seed, uint64_t family, uint64_t index)
{
    return (struct random){random_mix(random_mix(random_mix(seed) + family) + index)};
}

static inline uint32_t random_below(struct random *r, uint32_t bound)
{
    return (uint32_t)((random_next(r) >> 32) * bound >> 32);
}

static inline bool random_one_in(struct random *r, uint32_t bound)
{
    return random_below(r, bound) == 0;
}

#endif
