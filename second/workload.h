/* Workloads to time: rounds of events, or of postings, that come back to the state they start from. */
#ifndef WORKLOAD_H
#define WORKLOAD_H

#include "trial.h"

enum { MOST_EVENTS = 64 };

struct workload {
    const char *name;
    const char *words;
    struct gg_record record;
    uint8_t page[GG_PAGE_LENGTH];
    struct gg_event events[MOST_EVENTS];
    unsigned count;
    bool restores_mode; /* the mode byte is put back after every event */
    bool posts;         /* a round is one posting instead: this descriptor, with the notification vector */
    uint8_t descriptor[GG_DESCRIPTOR_LENGTH];
};

enum { WORKLOADS = 16 };

void workload_make(struct workload *w, unsigned which);

#endif
