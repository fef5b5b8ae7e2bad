/* Refusals 1, 5, 2 and 3: lengths, bounds, modes. */
#ifndef BOUNDS_H
#define BOUNDS_H

#include "oracle.h"

/* The refusal due before any rule is tried, 0 for none: of an event and of the calls that have none. */
unsigned bounds_refusal(const struct cpu *cpu, size_t page_len, const struct happening *e);
unsigned bounds_external_refusal(const struct cpu *cpu, size_t page_len, size_t descriptor_len,
                                 uint32_t vector);
unsigned bounds_leave_refusal(const struct cpu *cpu);
unsigned bounds_highest_refusal(size_t page_len, uint32_t base);

#endif
