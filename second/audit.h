/* The tender's condition 3, watched from outside over a session. */
#ifndef AUDIT_H
#define AUDIT_H

#include "trial.h"

/* The vectors delivered and not yet retired, in order of delivery. */
struct audit {
    uint8_t stack[256];
    unsigned depth;
};

/* Follows one step; returns the sentence that it breaks, or null. */
const char *audit_step(struct audit *audit, const struct trial *before, const struct side *side);

#endif
