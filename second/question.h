/* Questions for the highest vector of a register: random ones and sweeps. */
#ifndef QUESTION_H
#define QUESTION_H

#include "generate.h"

/* The base of VIRR or VISR, and any other. */
uint32_t question_register(struct random *r);
uint32_t question_wrong_base(struct random *r);

/* A question on an arbitrary page, now and then with a wrong page length, a wrong base or both. */
void question_any(struct random *r, struct trial *t);

/* The number of cases of each sweep below. */
enum {
    QUESTION_BITS = 257 * 2 * 3,
    QUESTION_PAIRS = 28 * 32 * 32 * 2,
    QUESTION_BASES = (GG_PAGE_LENGTH + 2 * 33) * PAGE_LENGTHS
};

/* Every vector alone in either register and either register empty, with three kinds of page around it. */
void question_bit(struct random *r, uint64_t index, struct trial *t);

/* Every two words of either register, every bit of the one with every bit of the other. */
void question_pair(struct random *r, uint64_t index, struct trial *t);

/* Every base on the page, and each register's with one bit flipped or none, by every page length. */
void question_base(struct random *r, uint64_t index, struct trial *t);

#endif
