/* Writes sessions as traces: what comes next depends on the state that the records so far lead to. */
#ifndef AUTHOR_H
#define AUTHOR_H

#include "random.h"
#include "trace.h"

/*
 * What a session is like: virtual-interrupt delivery with deep nesting, the TPR threshold without it, or any
 * controls and any events; a fair one has no record that is refused for its fields or its mode.
 */
enum style { STYLE_DELIVERY, STYLE_THRESHOLD, STYLE_WILD, STYLES };

struct author {
    struct trace *trace;
    enum style style;
    bool fair;
    uint64_t step;
    uint32_t records;
    struct gg_event entry; /* with the controls recorded last */
    struct gg_record record;
    uint8_t page[GG_PAGE_LENGTH];
};

/* Starts a trace on a fresh processor. */
void author_start(struct author *a, struct trace *trace, enum style style, bool fair);

/* Adds the records of one step, of which there are at most two. */
void author_step(struct author *a, struct random *r);

/* Adds steps until the trace has so many records, or next to no room up to so many bytes. */
void author_write(struct author *a, struct random *r, uint32_t records, size_t most);

/* Adds the shortest records until the trace has exactly so many bytes: none more, or at least three. */
void author_fill(struct author *a, size_t length);

/* An event of a kind with a field out of its bounds, where the kind has bounds that a record can leave. */
struct gg_event author_out_of_bounds(struct random *r, unsigned kind);

#endif
