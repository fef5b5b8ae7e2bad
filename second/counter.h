/* Counts the instructions that this program executes, where the kernel allows it. */
#ifndef COUNTER_H
#define COUNTER_H

#include <stdbool.h>
#include <stdint.h>

/* Opens the counter; false where there is none. */
bool counter_open(void);

/* Instructions executed so far; only differences mean something. */
uint64_t counter_read(void);

#endif
