/* Systematic sweeps: every combination of the settings that a rule looks at. */
#ifndef SWEEP_H
#define SWEEP_H

#include "random.h"
#include "trial.h"

/* A sweep has a fixed number of cases; its index says which settings a case has. */
struct sweep {
    const char *name;
    uint64_t count;
    void (*make)(struct random *r, uint64_t index, struct trial *t);
};

/* Takes the lowest digit off an index. */
static inline uint32_t digit(uint64_t *index, uint32_t bound)
{
    uint32_t value = (uint32_t)(*index % bound);
    *index /= bound;
    return value;
}

/* A word with one bit set, or with none, by a digit of 33. */
static inline uint32_t one_bit(uint64_t *index)
{
    return (uint32_t)(UINT64_C(1) << digit(index, 33));
}

/* Controls of a set, each turned on or off by a digit of its own. */
uint32_t choices(uint64_t *index, uint32_t set);

/* Guest mode under some controls, with vectors in both registers and RVI and SVI at their highest. */
void busy_guest(struct trial *t, uint32_t controls);

/* The sweeps, ended by one without a name. */
extern const struct sweep sweeps[];

#endif
