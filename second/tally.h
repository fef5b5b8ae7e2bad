/* Counts of what a run has exercised. */
#ifndef TALLY_H
#define TALLY_H

#include "trial.h"

enum { ANSWERS = 7, REASONS = 64, REFUSALS = 6, CHECKS = 7 };

/* The kinds that have document 01's answers; the question, the last kind, has three of its own. */
enum { ANSWERED_KINDS = KIND_HIGHEST, HIGHEST_ANSWERS = 3, HIGHEST_REFUSALS = 3 };

struct tally {
    uint64_t steps;
    uint64_t kinds[KINDS];
    uint64_t answers[ANSWERS];
    uint64_t reasons[REASONS];
    uint64_t refusals[REFUSALS];
    uint64_t checks[CHECKS];
    uint64_t cells[ANSWERED_KINDS][ANSWERS]; /* kind against answer */
    uint64_t highest[HIGHEST_ANSWERS];       /* the question's own answers */
    uint64_t highest_refusals[HIGHEST_REFUSALS];
    unsigned deepest; /* most vectors in service in a session */
};

void tally_add(struct tally *tally, const struct trial *before, const struct gg_answer *answer);
void tally_print(const struct tally *tally);

/* Prints a line for every cell that the run leaves at 0; returns their number. */
unsigned tally_missing(const struct tally *tally);

#endif
