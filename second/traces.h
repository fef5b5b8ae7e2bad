/* Families of traces: sessions, random records, damage, noise, and sweeps over the format's edges. */
#ifndef TRACES_H
#define TRACES_H

#include "attempt.h"

/*
 * A family makes an attempt by its index; the short run and the long one take so many. So many indices in
 * turn share what is random. False says that an index has no attempt, as a cut beyond its trace has none.
 */
struct family {
    const char *name;
    uint64_t gate, all, shared;
    bool (*make)(struct random *r, uint64_t index, struct attempt *a);
};

/* The families, ended by one without a name. */
extern const struct family families[];

#endif
