/* The bench cases of the documents and the peers' differences, by name. */
#ifndef NAMED_H
#define NAMED_H

#include "stage.h"

struct named_case {
    const char *name;
    void (*play)(struct stage *s);
    const char *words;
};

/* The cases of posted interrupts, ended by one without a name. */
extern const struct named_case posting_cases[];

/* Runs every case on both programs, one line each; returns the number that fail. */
unsigned named_run(void);

#endif
