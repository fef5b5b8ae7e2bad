/* A trace in the making, byte by byte or record by record, and a walk through its records. */
#ifndef TRACE_H
#define TRACE_H

#include "garlandgrid.h"
#include "reader.h"

/* Guard bytes stand around a trace, which starts at an odd address; some faults read past its end. */
enum { TRACE_GUARD = 33, TRACE_ROOM = 135000, TRACE_TAIL = 64 };

struct trace {
    size_t length;
    uint8_t bytes[TRACE_GUARD + TRACE_ROOM + TRACE_TAIL];
};

static inline uint8_t *trace_of(struct trace *t)
{
    return t->bytes + TRACE_GUARD;
}

static inline const uint8_t *trace_at(const struct trace *t)
{
    return t->bytes + TRACE_GUARD;
}

/* The bytes that are in use, guards included. */
static inline size_t trace_used(const struct trace *t)
{
    return TRACE_GUARD + t->length + TRACE_TAIL;
}

/* No bytes at all; then the version byte alone. */
void trace_clear(struct trace *t);
void trace_start(struct trace *t);

/* Gives a trace its length once it is made, with guard bytes around it. */
void trace_seal(struct trace *t, size_t length);

/* Adds bytes as they are, or a record: a length field and a body. */
void trace_append(struct trace *t, const uint8_t *bytes, size_t count);
void trace_add(struct trace *t, const uint8_t *body, size_t length);

/* Adds an event's record, cut to its fields; an entry is its kind alone. */
void trace_add_event(struct trace *t, const struct gg_event *event);

/* Adds the controls of an entry event. */
void trace_add_controls(struct trace *t, const struct gg_event *entry);

/* Reads on as the documents have it, whatever fault is on. */
bool trace_walk(struct reader *reader, const struct trace *t);
enum reading trace_next(struct reader *reader, const uint8_t **body);

/* How many records can be read, and the place of one of them, counted from 0. */
uint32_t trace_count(const struct trace *t);
size_t trace_place(const struct trace *t, uint32_t record);

#endif
