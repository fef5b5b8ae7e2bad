/* Null pointers with length 0. */
#ifndef NULL_H
#define NULL_H

#include <stdint.h>

/* Hands null pointers to both programs; returns the number of calls that answer or leave anything else. */
unsigned null_run(uint64_t seed);

#endif
