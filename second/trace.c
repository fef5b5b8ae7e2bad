/* Builds traces; the fields of a body stand in document 01's order, big-endian. */
#include "trace.h"

#include <string.h>

enum { GUARD_BYTE = 0xA5 };

void trace_clear(struct trace *t)
{
    memset(t->bytes, GUARD_BYTE, TRACE_GUARD);
    trace_seal(t, 0);
}

void trace_start(struct trace *t)
{
    const uint8_t version = TRACE_VERSION;
    trace_clear(t);
    trace_append(t, &version, 1);
}

void trace_seal(struct trace *t, size_t length)
{
    t->length = length;
    memset(trace_of(t) + length, GUARD_BYTE, TRACE_TAIL);
}

void trace_append(struct trace *t, const uint8_t *bytes, size_t count)
{
    memcpy(trace_of(t) + t->length, bytes, count);
    trace_seal(t, t->length + count);
}

/* Writes a number's low bytes, the highest first; returns the place after them. */
static uint8_t *put_big(uint8_t *to, unsigned size, uint64_t value)
{
    while (size-- > 0)
        *to++ = (uint8_t)(value >> 8 * size);
    return to;
}

void trace_add(struct trace *t, const uint8_t *body, size_t length)
{
    uint8_t field[LENGTH_FIELD];
    put_big(field, LENGTH_FIELD, length);
    trace_append(t, field, LENGTH_FIELD);
    trace_append(t, body, length);
}

static uint8_t *put_fields(uint8_t *to, const struct gg_event *event)
{
    switch (event->kind) {
    case GG_MEMORY_READ:
    case GG_MEMORY_WRITE:
        to = put_big(to, 2, event->number);
        *to++ = event->size;
        *to++ = event->flags;
        return event->kind == GG_MEMORY_WRITE ? put_big(to, 8, event->value) : to;
    case GG_TO_CR8:
        to = put_big(to, 1, event->value);
        return put_big(to, 1, event->detail);
    case GG_FROM_CR8:
        return put_big(to, 1, event->detail);
    case GG_RDMSR:
        return put_big(to, 4, event->number);
    case GG_WRMSR:
        to = put_big(to, 4, event->number);
        return put_big(to, 8, event->value);
    case GG_BOUNDARY:
        to = put_big(to, 1, event->flags);
        return put_big(to, 1, event->detail);
    case GG_REQUEST:
        return put_big(to, 1, event->number);
    default:
        return to;
    }
}

void trace_add_event(struct trace *t, const struct gg_event *event)
{
    uint8_t body[64];
    body[0] = event->kind;
    trace_add(t, body, (size_t)(put_fields(body + 1, event) - body));
}

void trace_add_controls(struct trace *t, const struct gg_event *entry)
{
    uint8_t body[64], *to = body;
    *to++ = SET_CONTROLS;
    to = put_big(to, 2, entry->value);
    to = put_big(to, 4, entry->number);
    for (int word = 0; word < 4; word++)
        to = put_big(to, 8, entry->eoi_exit[word]);
    trace_add(t, body, (size_t)(to - body));
}

bool trace_walk(struct reader *reader, const struct trace *t)
{
    enum replay_fault on = replay_fault_on;
    replay_fault_on = REPLAY_FAULT_NONE;
    bool started = reader_start(reader, trace_at(t), t->length);
    replay_fault_on = on;
    return started;
}

enum reading trace_next(struct reader *reader, const uint8_t **body)
{
    enum replay_fault on = replay_fault_on;
    replay_fault_on = REPLAY_FAULT_NONE;
    enum reading reading = reader_next(reader, body);
    replay_fault_on = on;
    return reading;
}

uint32_t trace_count(const struct trace *t)
{
    struct reader reader;
    const uint8_t *body;
    uint32_t count = 0;
    if (!trace_walk(&reader, t))
        return 0;
    while (trace_next(&reader, &body) == READING_RECORD)
        count++;
    return count;
}

size_t trace_place(const struct trace *t, uint32_t record)
{
    struct reader reader;
    const uint8_t *body;
    trace_walk(&reader, t);
    for (; record > 0; record--)
        trace_next(&reader, &body);
    return reader.place;
}
