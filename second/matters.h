/* The header's word on which boundaries matter. */
#ifndef MATTERS_H
#define MATTERS_H

#include <stdint.h>

/* Holds gg_boundary_matters to both programs; returns the number of boundaries that it misjudges. */
unsigned matters_run(uint64_t seed);

#endif
