/* One trace with its limit and its buffers, and the two programs run on it. */
#ifndef ATTEMPT_H
#define ATTEMPT_H

#include "random.h"
#include "trace.h"

/* Room for every text: a line's most bytes, and those after the lines. */
enum { ATTEMPT_LINE = 50, ATTEMPT_LAST = 16, OUT_ROOM = 1100000 };

/* The buffer that follows the ample one, by its length against the text's; no address for the null one. */
enum buffer {
    BUFFER_EXACT,
    BUFFER_MORE,
    BUFFER_LESS,
    BUFFER_SHORT,
    BUFFER_EMPTY,
    BUFFER_NULL,
    BUFFER_WHOLE, /* the header's room for the limit, or the whole of what there is */
    BUFFERS
};

struct attempt {
    struct trace trace;
    uint32_t limit;
    enum buffer buffer;
    uint32_t draw; /* how short a short buffer is */
};

/* What a program leaves: its answer, the length that it tells, the buffer with guard bytes around it. */
struct result {
    uint32_t answer;
    uint64_t written;
    size_t out_len;
    uint8_t bytes[TRACE_GUARD + OUT_ROOM + TRACE_TAIL];
};

/* Both programs after a call. */
struct replayed {
    bool null_out, trace_changed;
    struct result model, second;
};

/* Draws a limit around what the trace has, and a buffer. */
void attempt_draw(struct attempt *a, struct random *r);

/* A limit by a digit: none, a few, around the number of records, the document's, the most. */
enum { LIMITS = 9 };
uint32_t attempt_limit(unsigned which, uint32_t count);

/* The length of a buffer in which every text of the attempt has room, and of the one that follows it. */
size_t attempt_ample(const struct attempt *a);
size_t attempt_length(const struct attempt *a, size_t text);

/* Runs both programs on the same trace, with equal buffers; a trace of no bytes is null. */
void replayed_run(struct replayed *both, const struct attempt *a, size_t out_len, bool null_out);

/* Whether answer, length and every byte in and around the buffer agree, and the trace is as it was. */
bool replayed_same(const struct replayed *both);

/* The text that a program leaves, as far as the buffer goes. */
const uint8_t *result_text(const struct result *result);
size_t result_length(const struct result *result);

const char *buffer_words(enum buffer buffer);

#endif
