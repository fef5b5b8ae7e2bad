/* The records of a trace, one after the other, as E5 of document 02 has them. */
#ifndef READER_H
#define READER_H

#include "replay_faults.h"
#include "terms.h"

#include <stddef.h>

enum { TRACE_VERSION = 1, TRACE_MOST = 61440, LENGTH_FIELD = 2 };

/* A record's kind is an event's, or 0 for the controls of later entries. */
enum { SET_CONTROLS = 0, RECORD_KINDS = REQUEST + 1 };

/* A record's least bytes: the length field and a kind. */
enum { RECORD_LEAST = LENGTH_FIELD + 1 };

/* What a kind's body looks like: its length, where its flags stand, which of their bits are unused. */
static const struct form {
    uint8_t length, flags, unused;
} forms[RECORD_KINDS] = {
    [SET_CONTROLS] = {39, 1, 0xFE}, /* the flags' upper byte: bits 15:9 are unused */
    [ENTRY] = {1, 0, 0},
    [READ] = {5, 4, 0xFC},
    [WRITE] = {13, 4, 0xFC},
    [TO_CR8] = {3, 0, 0},
    [FROM_CR8] = {2, 0, 0},
    [RDMSR] = {5, 0, 0},
    [WRMSR] = {13, 0, 0},
    [BOUNDARY] = {3, 1, 0xF8},
    [REQUEST] = {2, 0, 0},
};

/* What a read finds: a record, the end of the trace, or what is wrong with a record that can't be read. */
enum reading {
    READING_RECORD,
    READING_END,
    READING_CUT_LENGTH,
    READING_CUT_BODY,
    READING_LENGTH_0,
    READING_KIND,
    READING_LENGTH,
    READING_FLAG,
    READINGS
};

/* A trace and the place of its next record. */
struct reader {
    const uint8_t *trace;
    size_t length;
    size_t place;
};

static inline uint16_t big_half(const uint8_t *from)
{
    return (uint16_t)(from[0] << 8 | from[1]);
}

static inline uint32_t big_word(const uint8_t *from)
{
    return (uint32_t)from[0] << 24 | (uint32_t)from[1] << 16 | (uint32_t)from[2] << 8 | from[3];
}

static inline uint64_t big_long(const uint8_t *from)
{
    return (uint64_t)big_word(from) << 32 | big_word(from + 4);
}

/* Stands before the first record; false for a wrong or missing version byte, or for too long a trace. */
static inline bool reader_start(struct reader *r, const uint8_t *trace, size_t length)
{
    size_t most = TRACE_MOST + (REPLAY_FAULT(SIZE_MORE) ? 1 : 0) - (REPLAY_FAULT(SIZE_LESS) ? 1 : 0);
    if (REPLAY_FAULT(SIZE_16))
        length &= 0xFFFF;
    *r = (struct reader){trace, length, 1};
    if (length == 0 || (trace[0] != TRACE_VERSION && !(REPLAY_FAULT(VERSION_2) && trace[0] == 2)))
        return false;
    return length <= most;
}

/* Whether a body has a flag bit that its kind doesn't use. */
static inline bool has_unused_flag(const struct form *form, const uint8_t *body)
{
    unsigned unused = form->unused, kind = body[0];
    if (REPLAY_FAULT(CONTROLS_BIT) && kind == SET_CONTROLS)
        unused &= ~2u;
    if (REPLAY_FAULT(READ_BIT) && kind == READ)
        unused &= ~4u;
    if (REPLAY_FAULT(WRITE_BIT) && kind == WRITE)
        unused &= ~0x80u;
    if (REPLAY_FAULT(BOUNDARY_BIT) && kind == BOUNDARY)
        unused &= ~8u;
    if (REPLAY_FAULT(FETCH_BAD) && kind == WRITE)
        unused |= FETCH;
    return body[form->flags] & unused;
}

/* Whether a length is its kind's; with a fault a body's fields may then lie beyond it. */
static inline bool has_length(const struct form *form, size_t length)
{
    if ((REPLAY_FAULT(LENGTH_LONGER) && length > form->length) ||
        (REPLAY_FAULT(LENGTH_SHORTER) && length < form->length))
        return true;
    return length == form->length;
}

/* Reads the next record and passes it; its body is part of the trace, and is there where it has a kind. */
static inline enum reading reader_next(struct reader *r, const uint8_t **body)
{
    const uint8_t *at = r->trace + r->place;
    if (r->place >= r->length || (REPLAY_FAULT(LENGTH_CUT) && r->length - r->place == 1))
        return READING_END;
    size_t left = r->length - r->place;
    if (left < LENGTH_FIELD)
        return READING_CUT_LENGTH;
    size_t length = REPLAY_FAULT(LENGTH_LITTLE) ? at[0] | (size_t)at[1] << 8 : big_half(at);
    if (left - LENGTH_FIELD + (REPLAY_FAULT(BODY_SHORT) ? 1 : 0) < length)
        return READING_CUT_BODY;
    if (length == 0)
        return READING_LENGTH_0;
    *body = at + LENGTH_FIELD;
    unsigned kind = REPLAY_FAULT(KIND_10) && **body == REQUEST + 1 ? REQUEST : **body;
    if (kind >= RECORD_KINDS)
        return READING_KIND;
    if (!has_length(&forms[kind], length))
        return READING_LENGTH;
    if (has_unused_flag(&forms[kind], *body))
        return READING_FLAG;
    r->place += LENGTH_FIELD + length;
    return READING_RECORD;
}

#endif
