/* Replays a trace over the second program's rules and writes the lines of E5 of document 02. */
#include "replay.h"

#include "oracle.h"
#include "reader.h"
#include "registers.h"

#include <string.h>

/* What is returned: the buffer is shorter than the text, or the text stands in it. */
enum { TOO_SHORT, WRITTEN };

/* A line's most bytes: a record number of 5 digits, an answer of 1, two numbers of 20, blanks, an end. */
enum { LINE_MOST = 5 + 1 + 20 + 20 + 4, LAST_MOST = 5 + 5 + 1, DIGITS_MOST = 20 };

/* Where the fields of a body stand, its kind being byte 0. */
enum { AT_FLAGS = 1, AT_THRESHOLD = 3, AT_EXITS = 7 };
enum { AT_OFFSET = 1, AT_SIZE = 3, AT_ACCESS = 4, AT_VALUE = 5, AT_INDEX = 1 };

/* The processor, its page, and the two events it gets: the entry with its controls, and any other. */
struct machine {
    struct cpu cpu;
    struct happening entry;
    struct happening other;
    uint8_t page[PAGE];
};

/* The lines so far; where there is nowhere to write, their length alone. */
struct text {
    uint8_t *out;
    size_t length;
};

/* Where the next line is written. */
static uint8_t *line_start(const struct text *text, uint8_t *scratch)
{
    return text->out ? text->out + text->length : scratch;
}

/* Writes a number in decimal; returns the place after it. */
static uint8_t *put_decimal(uint8_t *to, uint64_t value)
{
    uint8_t digits[DIGITS_MOST];
    unsigned first = DIGITS_MOST;
    if (REPLAY_FAULT(DIGITS_31))
        value &= 0x7FFFFFFF;
    if (REPLAY_FAULT(DIGIT_DROPPED) && value >= 10)
        value /= 10;
    for (; value >= 10; value /= 10)
        digits[--first] = (uint8_t)('0' + value % 10);
    *to++ = (uint8_t)('0' + value);
    while (first < DIGITS_MOST)
        *to++ = digits[first++];
    return to;
}

static void put_line(struct text *text, uint32_t number, struct outcome outcome)
{
    uint8_t scratch[LINE_MOST];
    uint8_t *start = line_start(text, scratch), *to = put_decimal(start, number);
    *to++ = ' ';
    *to++ = (uint8_t)('0' + outcome.answer);
    *to++ = ' ';
    to = put_decimal(to, outcome.first);
    *to++ = ' ';
    to = put_decimal(to, outcome.second);
    *to++ = '\n';
    text->length += (size_t)(to - start);
}

/* Writes the line that ends the text: "done" and the count, or "bad" and a record's number. */
static void put_last(struct text *text, const char *word, uint32_t number)
{
    uint8_t scratch[LAST_MOST];
    uint8_t *start = line_start(text, scratch), *to = start;
    while (*word)
        *to++ = (uint8_t)*word++;
    *to++ = ' ';
    to = put_decimal(to, number);
    if (!REPLAY_FAULT(NO_LAST_END))
        *to++ = '\n';
    text->length += (size_t)(to - start);
}

/* The EOI-exit words, each big-endian: vector v stands at word v / 64, bit v mod 64. */
static void read_exits(uint8_t *exits, const uint8_t *from)
{
    for (unsigned word = 0; word < 4; word++) {
        const uint8_t *at = from + 8 * (REPLAY_FAULT(EXITS_REVERSED) ? 3 - word : word);
        uint64_t bits = REPLAY_FAULT(EXITS_LITTLE) ? load(at, 8) : big_long(at);
        store_word(exits + 8 * word, (uint32_t)bits);
        store_word(exits + 8 * word + 4, (uint32_t)(bits >> 32));
    }
}

/* Controls for later entries; those of posted interrupts stay off, so the flags are the whole value. */
static void read_controls(struct happening *entry, const uint8_t *body)
{
    entry->value = REPLAY_FAULT(FLAGS_LITTLE) ? load_half(body + AT_FLAGS) : big_half(body + AT_FLAGS);
    entry->number =
        REPLAY_FAULT(THRESHOLD_LITTLE) ? load_word(body + AT_THRESHOLD) : big_word(body + AT_THRESHOLD);
    read_exits(entry->eoi_exit, body + AT_EXITS);
}

/* Offset, size, flags, and for a write the value. */
static void read_access(struct happening *e, const uint8_t *body)
{
    e->number = REPLAY_FAULT(OFFSET_LITTLE) ? load_half(body + AT_OFFSET) : big_half(body + AT_OFFSET);
    e->size = body[REPLAY_FAULT(SIZE_SWAPPED) ? AT_ACCESS : AT_SIZE];
    e->flags = body[REPLAY_FAULT(SIZE_SWAPPED) ? AT_SIZE : AT_ACCESS];
    if (e->kind == WRITE)
        e->value = REPLAY_FAULT(VALUE_LITTLE) ? load(body + AT_VALUE, 8) : big_long(body + AT_VALUE);
}

/* The index, and for WRMSR the value. */
static void read_msr(struct happening *e, const uint8_t *body)
{
    e->number = REPLAY_FAULT(INDEX_LITTLE) ? load_word(body + AT_INDEX) : big_word(body + AT_INDEX);
    if (e->kind == WRMSR)
        e->value = REPLAY_FAULT(MSR_LITTLE) ? load(body + AT_VALUE, 8) : big_long(body + AT_VALUE);
}

/* IF, blocking by STI and blocking by MOV SS stand in the flags as the rules have them. */
static void read_boundary(struct happening *e, const uint8_t *body)
{
    e->flags = body[1];
    e->detail = body[REPLAY_FAULT(ACTIVITY_FLAGS) ? 1 : 2];
    if (REPLAY_FAULT(IF_SWAPPED))
        e->flags = (e->flags & 4) | (e->flags & 1) << 1 | (e->flags >> 1 & 1);
    if (REPLAY_FAULT(MOV_SS_DROPPED))
        e->flags &= ~4u;
}

/* Reads an event that is no entry; the fields that its kind doesn't name don't count. */
static void read_event(struct happening *e, const uint8_t *body)
{
    e->kind = body[0];
    switch (body[0]) {
    case READ:
    case WRITE:
        read_access(e, body);
        break;
    case TO_CR8:
        e->value = body[REPLAY_FAULT(CR8_SWAPPED) ? 2 : 1];
        e->detail = body[REPLAY_FAULT(CR8_SWAPPED) ? 1 : 2];
        break;
    case FROM_CR8:
        e->detail = body[1];
        break;
    case RDMSR:
    case WRMSR:
        read_msr(e, body);
        break;
    case BOUNDARY:
        read_boundary(e, body);
        break;
    default:
        e->kind = REQUEST;
        e->number = body[1];
    }
}

/* Controls are quiet in either mode, and nothing but a later entry sees them. */
static struct outcome set_controls(struct machine *m, const uint8_t *body)
{
    if (REPLAY_FAULT(CONTROLS_REFUSED) && m->cpu.mode == 1)
        return (struct outcome){REFUSED, 3, 0};
    read_controls(&m->entry, body);
    if (REPLAY_FAULT(CONTROLS_AT_ONCE)) {
        m->cpu.controls = (uint32_t)m->entry.value;
        m->cpu.threshold = m->entry.number;
        memcpy(m->cpu.eoi_exit, m->entry.eoi_exit, sizeof m->cpu.eoi_exit);
    }
    return (struct outcome){QUIET, 0, 0};
}

static struct outcome enter(struct machine *m)
{
    struct outcome outcome = oracle_step(&m->cpu, m->page, PAGE, &m->entry);
    if (REPLAY_FAULT(CONTROLS_ONCE))
        m->entry = (struct happening){.kind = ENTRY};
    return outcome;
}

static struct outcome step(struct machine *m, const uint8_t *body)
{
    if (body[0] == SET_CONTROLS)
        return set_controls(m, body);
    if (body[0] == ENTRY)
        return enter(m);
    read_event(&m->other, body);
    return oracle_step(&m->cpu, m->page, PAGE, &m->other);
}

/* Carries out a record that can be read; false says that it can't be after all, which only a fault does. */
static bool carry_out(struct machine *m, const uint8_t *body, struct outcome *outcome)
{
    *outcome = step(m, body);
    return !(REPLAY_FAULT(BOUNDS_BAD) && outcome->answer == REFUSED && outcome->first == 2);
}

/* Fresh, on a page of zeros, with all controls of the first entries zero. */
static void machine_start(struct machine *m)
{
    memset(m, 0, sizeof *m);
    m->entry.kind = ENTRY;
    if (REPLAY_FAULT(CONTROLS_BEFORE))
        m->entry.value = 1u << SHADOW;
}

/* The records to carry out at most. */
static uint32_t limit_of(uint32_t limit)
{
    if (REPLAY_FAULT(LIMIT_MORE) && limit < UINT32_MAX)
        return limit + 1;
    return REPLAY_FAULT(LIMIT_LESS) && limit > 0 ? limit - 1 : limit;
}

static enum reading next_record(struct reader *reader, const uint8_t **body)
{
    enum reading reading = reader_next(reader, body);
    while (REPLAY_FAULT(LENGTH_ZERO) && reading == READING_LENGTH_0) {
        reader->place += LENGTH_FIELD;
        reading = reader_next(reader, body);
    }
    return reading;
}

/* Prints a record's line; returns how many records are counted then. */
static uint32_t print_record(struct text *text, uint32_t count, unsigned kind, struct outcome outcome)
{
    bool controls = kind == SET_CONTROLS;
    if (!(REPLAY_FAULT(CONTROLS_SILENT) && controls))
        put_line(text, REPLAY_FAULT(FROM_ZERO) ? count : count + 1, outcome);
    return REPLAY_FAULT(CONTROLS_UNCOUNTED) && controls ? count : count + 1;
}

/* The first record that can't be read comes after those counted. */
static void print_bad(struct text *text, uint32_t count)
{
    put_last(text, "bad", REPLAY_FAULT(BAD_BEFORE) ? count : count + 1);
}

static void print_done(struct text *text, uint32_t count, uint32_t limit)
{
    put_last(text, "done", REPLAY_FAULT(LIMIT_COUNT) && limit > count ? limit : count);
}

/* Whether the record after the limit counts against the trace, which only a fault has it do. */
static bool is_bad_after(struct reader *reader, const uint8_t **body)
{
    return REPLAY_FAULT(LIMIT_BAD) && next_record(reader, body) > READING_END;
}

/* Carries out one record after the other until the trace ends, one can't be read, or the limit is reached. */
static void replay_records(struct reader *reader, uint32_t limit, struct text *text)
{
    struct machine m;
    const uint8_t *body;
    uint32_t count = 0;
    machine_start(&m);
    while (count < limit_of(limit)) {
        enum reading reading = next_record(reader, &body);
        if (reading == READING_END)
            break;
        struct outcome outcome;
        if (reading != READING_RECORD || !carry_out(&m, body, &outcome)) {
            print_bad(text, count);
            return;
        }
        count = print_record(text, count, body[0], outcome);
    }
    if (is_bad_after(reader, &body))
        print_bad(text, count);
    else
        print_done(text, count, limit);
}

/* The faults in which a trace that has no records to read is done, not bad. */
static bool is_done_at_once(size_t trace_len, uint32_t limit)
{
    return (REPLAY_FAULT(EMPTY_DONE) && trace_len == 0) || (REPLAY_FAULT(VERSION_LAST) && limit == 0);
}

/* Writes the whole text to a place, or to none; returns its length. */
static size_t replay(const uint8_t *trace, size_t trace_len, uint32_t limit, uint8_t *out)
{
    struct text text = {out, 0};
    struct reader reader;
    if (reader_start(&reader, trace, trace_len)) {
        replay_records(&reader, limit, &text);
        return text.length;
    }
    if (REPLAY_FAULT(SIZE_LAST) && trace_len > TRACE_MOST) {
        reader.length = TRACE_MOST;
        replay_records(&reader, limit, &text);
    }
    put_last(&text, is_done_at_once(trace_len, limit) ? "done" : "bad", 0);
    return text.length;
}

/* No text is longer: a line for each record that the limit and the trace's bytes allow, and the last line. */
static size_t most_text(size_t trace_len, uint32_t limit)
{
    size_t records = trace_len > TRACE_MOST ? 0 : trace_len / RECORD_LEAST;
    return LINE_MOST * (records < limit ? records : limit) + LAST_MOST;
}

static bool fits(size_t length, size_t out_len)
{
    return length + (REPLAY_FAULT(EXACT_SHORT) ? 1 : 0) <= out_len + (REPLAY_FAULT(SHORT_TAKEN) ? 1 : 0);
}

/* Nothing is written where the text has no room, but for two faults. */
static uint32_t refuse(size_t length, uint8_t *out, size_t out_len, uint64_t *written)
{
    if (REPLAY_FAULT(SHORT_TOUCHED) && out_len > 0)
        out[0] = '1';
    *written = REPLAY_FAULT(SHORT_LENGTH) ? length : 0;
    return TOO_SHORT;
}

/* The text is measured first only where the buffer might be too short for it. */
uint32_t second_replay(const uint8_t *trace, size_t trace_len, uint32_t limit, uint8_t *out, size_t out_len,
                       uint64_t *written)
{
    if (out_len < most_text(trace_len, limit)) {
        size_t length = replay(trace, trace_len, limit, NULL);
        if (!fits(length, out_len))
            return refuse(length, out, out_len, written);
    }
    *written = replay(trace, trace_len, limit, out);
    return WRITTEN;
}
