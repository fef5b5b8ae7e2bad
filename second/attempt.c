/* Attempts: limits and buffers for a trace, and both programs run on it. */
#include "attempt.h"

#include "replay.h"

#include <string.h>

/* No text has such a byte, so that every byte which isn't text shows. */
enum { FILL_BYTE = 0xA5 };

/* One attempt in so many has the whole buffer, which takes long to fill and to compare. */
enum { WHOLE_BUFFERS = 64 };

/* What the length holds before a call, so that one left unwritten shows. */
static const uint64_t UNWRITTEN = UINT64_C(0xA5A5A5A5A5A5A5A5);

typedef uint32_t replay_function(const uint8_t *trace, size_t trace_len, uint32_t limit, uint8_t *out,
                                 size_t out_len, uint64_t *written);

uint32_t attempt_limit(unsigned which, uint32_t count)
{
    switch (which) {
    case 0:
        return 0;
    case 1:
        return 1;
    case 2:
        return 2;
    case 3:
        return count > 0 ? count - 1 : 0;
    case 4:
        return count;
    case 5:
        return count + 1;
    case 6:
        return count + 2;
    case 7:
        return GG_REPLAY_LIMIT;
    default:
        return UINT32_MAX;
    }
}

void attempt_draw(struct attempt *a, struct random *r)
{
    uint32_t which = random_below(r, LIMITS), count = trace_count(&a->trace);
    uint32_t inside = random_below(r, count + 1);
    a->limit = GG_REPLAY_LIMIT;
    if (random_one_in(r, 4))
        a->limit = attempt_limit(which, count);
    else if (random_one_in(r, 4))
        a->limit = inside;
    a->buffer = (enum buffer)random_below(r, BUFFER_WHOLE);
    if (random_one_in(r, WHOLE_BUFFERS))
        a->buffer = BUFFER_WHOLE;
    a->draw = (uint32_t)random_next(r);
}

/* Two lines more than the limit and the trace's bytes allow, since a fault may print one too many. */
size_t attempt_ample(const struct attempt *a)
{
    size_t lines = a->trace.length / RECORD_LEAST, most = (OUT_ROOM - ATTEMPT_LAST) / ATTEMPT_LINE;
    if (lines > a->limit)
        lines = a->limit;
    return ATTEMPT_LINE * (lines + 2 < most ? lines + 2 : most) + ATTEMPT_LAST;
}

size_t attempt_length(const struct attempt *a, size_t text)
{
    size_t room = GG_REPLAY_ROOM(a->limit);
    switch (a->buffer) {
    case BUFFER_EXACT:
        return text;
    case BUFFER_MORE:
        return text + 1;
    case BUFFER_LESS:
        return text - 1;
    case BUFFER_SHORT:
        return a->draw % text;
    case BUFFER_WHOLE:
        return room < OUT_ROOM ? room : OUT_ROOM;
    default:
        return 0;
    }
}

static void run(struct result *result, const struct attempt *a, size_t out_len, bool null_out,
                replay_function *replay)
{
    const uint8_t *trace = a->trace.length > 0 ? trace_at(&a->trace) : NULL;
    uint8_t *out = null_out ? NULL : result->bytes + TRACE_GUARD;
    memset(result->bytes, FILL_BYTE, TRACE_GUARD + out_len + TRACE_TAIL);
    result->out_len = out_len;
    result->written = UNWRITTEN;
    result->answer = replay(trace, a->trace.length, a->limit, out, out_len, &result->written);
}

void replayed_run(struct replayed *both, const struct attempt *a, size_t out_len, bool null_out)
{
    static struct trace before;
    memcpy(before.bytes, a->trace.bytes, trace_used(&a->trace));
    both->null_out = null_out;
    run(&both->model, a, out_len, null_out, gg_replay);
    run(&both->second, a, out_len, null_out, second_replay);
    both->trace_changed = memcmp(before.bytes, a->trace.bytes, trace_used(&a->trace)) != 0;
}

bool replayed_same(const struct replayed *both)
{
    const struct result *model = &both->model, *second = &both->second;
    return model->answer == second->answer && model->written == second->written && !both->trace_changed &&
           memcmp(model->bytes, second->bytes, TRACE_GUARD + model->out_len + TRACE_TAIL) == 0;
}

const uint8_t *result_text(const struct result *result)
{
    return result->bytes + TRACE_GUARD;
}

size_t result_length(const struct result *result)
{
    return result->written < result->out_len ? (size_t)result->written : result->out_len;
}

const char *buffer_words(enum buffer buffer)
{
    static const char *const words[BUFFERS] = {
        "exactly the text's length", "a byte more", "a byte less", "shorter", "no bytes", "null",
        "room for the limit"};
    return words[buffer];
}
