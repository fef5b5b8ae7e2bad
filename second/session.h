/* Long sessions from fresh: the same record and page are handed on from event to event. */
#ifndef SESSION_H
#define SESSION_H

#include "audit.h"
#include "random.h"
#include "trial.h"

enum { SESSION_LENGTH = 1000 };

struct session {
    struct trial now;
    struct audit audit;
    uint64_t number;
    uint64_t step;
};

void session_start(struct session *s, uint64_t number);

/* Every fourth session enters with any controls; the others keep virtual-interrupt delivery on. */
bool session_is_wild(const struct session *s);

/* Chooses the next event, external interrupt, leave or question, from the state that is reached. */
void session_choose(struct random *r, struct session *s);

/* Hands on what the step leaves; returns the broken sentence of condition 3, or null. */
const char *session_advance(struct session *s, const struct side *side);

#endif
