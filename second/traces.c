/* The families of traces; a sweep's index is read as digits, one for each setting. */
#include "traces.h"

#include "author.h"
#include "generate.h"
#include "sweep.h"

#include <string.h>

#define COUNT(array) (sizeof(array) / sizeof((array)[0]))

/* Cuts of one session have so many indices, and its trace fewer bytes. */
enum { CUT_PLACES = 1024 };

static struct author author;

/* A session of any style; three in four are short, so that many end in the midst of something. */
static void write_session(struct random *r, struct trace *t)
{
    uint32_t style = random_below(r, STYLES), records = 1 + random_below(r, 24);
    if (random_one_in(r, 4))
        records = 24 + random_below(r, 150);
    author_start(&author, t, (enum style)style, random_one_in(r, 4));
    author_write(&author, r, records, CUT_PLACES - 1);
}

static bool make_session(struct random *r, uint64_t index, struct attempt *a)
{
    (void)index;
    write_session(r, &a->trace);
    attempt_draw(a, r);
    return true;
}

/* Each index of a session cuts it at another place, with a limit and a buffer of its own. */
static bool make_cut(struct random *r, uint64_t index, struct attempt *a)
{
    size_t place = index % CUT_PLACES;
    write_session(r, &a->trace);
    struct random of_cut = random_for(random_next(r), 0, place);
    if (place > a->trace.length)
        return false;
    trace_seal(&a->trace, place);
    attempt_draw(a, &of_cut);
    return true;
}

/* A record of random bytes: mostly of a known kind, of its length, and without unused flags. */
static void add_uniform(struct random *r, struct trace *t)
{
    uint8_t body[256];
    uint32_t kind = random_one_in(r, 64) ? random_below(r, 256) : random_below(r, RECORD_KINDS);
    const struct form *form = &forms[kind % RECORD_KINDS];
    size_t length = form->length;
    generate_bytes(r, body, sizeof body);
    body[0] = (uint8_t)kind;
    if (!random_one_in(r, 64))
        body[form->flags] &= (uint8_t)~form->unused;
    if (random_one_in(r, 2) && (kind == READ || kind == WRITE)) {
        body[1] &= 15;
        body[3] = (uint8_t)(1u << random_below(r, 4));
    }
    if (random_one_in(r, 64))
        length = random_below(r, 48);
    trace_add(t, body, length);
}

static bool make_uniform(struct random *r, uint64_t index, struct attempt *a)
{
    (void)index;
    trace_start(&a->trace);
    for (uint32_t left = 1 + random_below(r, 48); left > 0; left--)
        add_uniform(r, &a->trace);
    attempt_draw(a, r);
    return true;
}

static void damage_bit(struct random *r, struct trace *t)
{
    uint32_t at = random_below(r, (uint32_t)t->length), bit = random_below(r, 8);
    trace_of(t)[at] ^= (uint8_t)(1u << bit);
}

static void damage_byte(struct random *r, struct trace *t)
{
    uint32_t at = random_below(r, (uint32_t)t->length);
    trace_of(t)[at] = (uint8_t)random_next(r);
}

static void damage_by_insertion(struct random *r, struct trace *t)
{
    uint32_t at = random_below(r, (uint32_t)t->length + 1);
    memmove(trace_of(t) + at + 1, trace_of(t) + at, t->length - at);
    trace_of(t)[at] = (uint8_t)(random_one_in(r, 2) ? 0 : random_next(r));
    trace_seal(t, t->length + 1);
}

static void damage_by_deletion(struct random *r, struct trace *t)
{
    uint32_t at = random_below(r, (uint32_t)t->length);
    memmove(trace_of(t) + at, trace_of(t) + at + 1, t->length - at - 1);
    trace_seal(t, t->length - 1);
}

static void damage_by_cut(struct random *r, struct trace *t)
{
    trace_seal(t, random_below(r, (uint32_t)t->length + 1));
}

/* Where one of the readable records starts, or where the first unreadable one does. */
static size_t some_place(struct random *r, const struct trace *t)
{
    return trace_place(t, random_below(r, trace_count(t) + 1));
}

/* Changes a byte so far into some record; 0 and 1 are its length, 2 is its kind. */
static void change_record(struct random *r, struct trace *t, unsigned into, unsigned by)
{
    size_t at = some_place(r, t) + into;
    if (at < t->length)
        trace_of(t)[at] = (uint8_t)(trace_of(t)[at] + by);
}

static void damage_length(struct random *r, struct trace *t)
{
    uint32_t high = random_one_in(r, 8), up = random_below(r, 2);
    change_record(r, t, high ? 0 : 1, up ? 1 : 255);
}

static void damage_kind(struct random *r, struct trace *t)
{
    uint32_t by = 1 + random_below(r, 12);
    change_record(r, t, LENGTH_FIELD, by);
}

/* A flag bit of a record that has flags, used or not. */
static void damage_flag(struct random *r, struct trace *t)
{
    size_t at = some_place(r, t) + LENGTH_FIELD;
    uint32_t bit = random_below(r, 8);
    if (at >= t->length || trace_at(t)[at] >= RECORD_KINDS || forms[trace_at(t)[at]].unused == 0)
        return;
    at += forms[trace_at(t)[at]].flags;
    if (at < t->length)
        trace_of(t)[at] ^= (uint8_t)(1u << bit);
}

static void damage_version(struct random *r, struct trace *t)
{
    trace_of(t)[0] = (uint8_t)(random_one_in(r, 2) ? random_below(r, 4) : random_below(r, 256));
}

/* An empty record, or the start of one, after the others. */
static void damage_end(struct random *r, struct trace *t)
{
    static const uint8_t rest[] = {0, 0, 0, 1, 0, 39, 0};
    uint32_t from = random_below(r, 6);
    trace_append(t, rest + from, 1 + random_below(r, 2));
}

typedef void damage_function(struct random *r, struct trace *t);

static damage_function *const damages[] = {
    damage_bit,    damage_bit,  damage_byte, damage_by_insertion, damage_by_deletion, damage_by_cut,
    damage_length, damage_kind, damage_flag, damage_version,      damage_end,
};

static bool make_damaged(struct random *r, uint64_t index, struct attempt *a)
{
    (void)index;
    write_session(r, &a->trace);
    for (uint32_t left = 1 + random_below(r, 3); left > 0 && a->trace.length > 0; left--)
        damages[random_below(r, COUNT(damages))](r, &a->trace);
    attempt_draw(a, r);
    return true;
}

static bool make_noise(struct random *r, uint64_t index, struct attempt *a)
{
    static uint8_t noise[2048];
    (void)index;
    generate_bytes(r, noise, sizeof noise);
    trace_clear(&a->trace);
    if (!random_one_in(r, 4))
        trace_start(&a->trace);
    uint32_t most = random_one_in(r, 4) ? sizeof noise : 16;
    trace_append(&a->trace, noise, random_below(r, most + 1));
    attempt_draw(a, r);
    return true;
}

/* Where the processor stands before the record of a sweep: in root mode, or a guest under some controls. */
enum { IN_ROOT, SETTINGS = 6 };

/* A trace that gets there; under R the register at 320 is FFFFFFFF then. */
static void start_in(unsigned setting, struct trace *t)
{
    static const uint32_t controls[SETTINGS] = {0,
                                                0,
                                                GG_USE_TPR_SHADOW | GG_VIRTUALIZE_APIC_ACCESSES,
                                                CONTROLS_R,
                                                CONTROLS_X2 | GG_APIC_REGISTER_VIRTUALIZATION,
                                                CONTROLS_X2 | GG_CR8_LOAD_EXITING | GG_CR8_STORE_EXITING};
    const uint64_t exits[4] = {0x0123456789ABCDEF, 0, 0, 0xFFFFFFFF00000000};
    struct gg_event entry = gg_entry(controls[setting], 0, exits), request = gg_request(0x71);
    struct gg_event mark = gg_memory_write(0x320, 4, 0xFFFFFFFF, 0);
    trace_start(t);
    trace_add_event(t, &request);
    if (setting == IN_ROOT)
        return;
    trace_add_controls(t, &entry);
    trace_add_event(t, &entry);
    trace_add_event(t, &mark);
    if (controls[setting] & GG_VIRTUALIZE_APIC_ACCESSES)
        trace_add_event(t, &entry);
}

/* What follows a sweep's record: an open boundary and an EOI, whose answers depend on what came before. */
static void finish(struct random *r, struct attempt *a)
{
    struct gg_event boundary = gg_boundary(GG_IF, GG_ACTIVE), eoi = gg_wrmsr(0x80B, 0);
    trace_add_event(&a->trace, &boundary);
    trace_add_event(&a->trace, &eoi);
    attempt_draw(a, r);
}

/* The body that a sweep changes, with its fields in bounds; returns its kind's length. */
static size_t plain_body(unsigned kind, uint8_t *body)
{
    static const uint8_t bodies[RECORD_KINDS][13] = {
        [SET_CONTROLS] = {0, 0, 0x31},
        [ENTRY] = {1},
        [READ] = {2, 0, 0x80, 4, 0},
        [WRITE] = {3, 0, 0x80, 4, 0, 0, 0, 0, 0, 0, 0, 0, 0x20},
        [TO_CR8] = {4, 2, 7},
        [FROM_CR8] = {5, 7},
        [RDMSR] = {6, 0, 0, 8, 8},
        [WRMSR] = {7, 0, 0, 8, 8, 0, 0, 0, 0, 0, 0, 0, 0x20},
        [BOUNDARY] = {8, 1, 0},
        [REQUEST] = {9, 0x60},
    };
    memcpy(body, bodies[kind % RECORD_KINDS], sizeof bodies[0]);
    body[0] = (uint8_t)kind;
    return forms[kind % RECORD_KINDS].length;
}

enum { FLAGGED = 4, FLAG_CASES = FLAGGED * 256 * SETTINGS };

/* Each value of the byte that holds unused flags, in every kind that has one. */
static bool sweep_flags(struct random *r, uint64_t index, struct attempt *a)
{
    static const uint8_t kinds[FLAGGED] = {SET_CONTROLS, READ, WRITE, BOUNDARY};
    uint8_t body[64] = {0};
    uint32_t kind = kinds[digit(&index, FLAGGED)], value = digit(&index, 256);
    start_in(digit(&index, SETTINGS), &a->trace);
    size_t length = plain_body(kind, body);
    body[forms[kind].flags] = (uint8_t)value;
    trace_add(&a->trace, body, length);
    finish(r, a);
    return true;
}

enum { CONTROLS_CASES = 17 * 17 * 2 };

/* Each one and two bits of an entry's controls. */
static bool sweep_controls(struct random *r, uint64_t index, struct attempt *a)
{
    uint32_t first = digit(&index, 17), second = digit(&index, 17), both = 1u << first | 1u << second;
    struct gg_event entry = gg_entry(both & 0xFFFF, digit(&index, 2) ? 1 : 0, NULL);
    struct gg_event cr8 = gg_from_cr8(3);
    trace_start(&a->trace);
    trace_add_controls(&a->trace, &entry);
    trace_add_event(&a->trace, &entry);
    trace_add_event(&a->trace, &cr8);
    finish(r, a);
    return true;
}

enum { LENGTH_KINDS = RECORD_KINDS + 2, LENGTHS = 52, LENGTH_CASES = LENGTH_KINDS * LENGTHS * 3 };

/* Each length up to beyond the longest, and far ones; a byte too few follows, or too many, or neither. */
static bool sweep_length(struct random *r, uint64_t index, struct attempt *a)
{
    static const uint16_t far[] = {255, 256, 0x0100 + 13, 0x0500, 0x2700, 0x8001, 0xFFFF};
    static uint8_t body[0x10001];
    uint8_t field[LENGTH_FIELD];
    uint32_t kind = digit(&index, LENGTH_KINDS), which = digit(&index, LENGTHS), there = digit(&index, 3);
    size_t length = which < LENGTHS - COUNT(far) ? which : far[which - (LENGTHS - COUNT(far))];
    start_in(2, &a->trace);
    plain_body(kind, body);
    field[0] = (uint8_t)(length >> 8);
    field[1] = (uint8_t)length;
    trace_append(&a->trace, field, sizeof field);
    trace_append(&a->trace, body, there == 1 && length > 0 ? length - 1 : there == 2 ? length + 1 : length);
    finish(r, a);
    return true;
}

/* Fields at their bounds, beside them and beyond. */
static const uint16_t edge_offsets[] = {0,     0x07F, 0x080,  0x083,  0x0B0,  0x300,  0x310,
                                        0x320, 0xFFF, 0x1000, 0x1080, 0x8000, 0x8080, 0xFFFF};
static const uint8_t edge_sizes[] = {0, 1, 2, 3, 4, 5, 7, 8, 9, 255};
static const uint64_t edge_values[] = {
    0, 0xFF, 0x100, 0xFFFF, 0x10000, 0x40071, 0xFFFFFFFF, 0x100000000, UINT64_C(1) << 63, UINT64_MAX};
static const uint32_t edge_indices[] = {0,     0x7FF, 0x800, 0x808,      0x809,      0x80B,      0x832,
                                        0x83F, 0x8FF, 0x900, 0x08080000, 0x0B080000, 0x3F080000, 0xFFFFFFFF};
static const uint64_t edge_msr_values[] = {
    0, 1, 15, 16, 0x71, 0xFF, 0x100, UINT64_C(1) << 32, UINT64_C(0x71) << 56, UINT64_MAX};
static const uint8_t edge_bytes[] = {0, 1, 2, 3, 4, 7, 14, 15, 16, 17, 127, 128, 255};

enum { READ_CASES = SETTINGS * 4 * COUNT(edge_offsets) * COUNT(edge_sizes) };
enum { WRITE_CASES = READ_CASES * COUNT(edge_values) };
enum { RDMSR_CASES = SETTINGS * COUNT(edge_indices), WRMSR_CASES = RDMSR_CASES * COUNT(edge_msr_values) };
enum { BYTE_CASES = SETTINGS * 4 * COUNT(edge_bytes) * COUNT(edge_bytes) };

/* An event from a setting, and what follows it. */
static bool add_edge(struct random *r, uint64_t setting, struct gg_event event, struct attempt *a)
{
    start_in((unsigned)setting, &a->trace);
    trace_add_event(&a->trace, &event);
    finish(r, a);
    return true;
}

static bool sweep_read(struct random *r, uint64_t index, struct attempt *a)
{
    uint32_t offset = edge_offsets[digit(&index, COUNT(edge_offsets))];
    uint8_t size = edge_sizes[digit(&index, COUNT(edge_sizes))], flags = (uint8_t)digit(&index, 4);
    return add_edge(r, index, gg_memory_read(offset, size, flags), a);
}

static bool sweep_write(struct random *r, uint64_t index, struct attempt *a)
{
    uint32_t offset = edge_offsets[digit(&index, COUNT(edge_offsets))];
    uint8_t size = edge_sizes[digit(&index, COUNT(edge_sizes))], flags = (uint8_t)digit(&index, 4);
    uint64_t value = edge_values[digit(&index, COUNT(edge_values))];
    return add_edge(r, index, gg_memory_write(offset, size, value, flags), a);
}

static bool sweep_rdmsr(struct random *r, uint64_t index, struct attempt *a)
{
    uint32_t msr = edge_indices[digit(&index, COUNT(edge_indices))];
    return add_edge(r, index, gg_rdmsr(msr), a);
}

static bool sweep_wrmsr(struct random *r, uint64_t index, struct attempt *a)
{
    uint32_t msr = edge_indices[digit(&index, COUNT(edge_indices))];
    uint64_t value = edge_msr_values[digit(&index, COUNT(edge_msr_values))];
    return add_edge(r, index, gg_wrmsr(msr, value), a);
}

/* The kinds whose fields are single bytes. */
static bool sweep_byte(struct random *r, uint64_t index, struct attempt *a)
{
    uint8_t first = edge_bytes[digit(&index, COUNT(edge_bytes))];
    uint8_t second = edge_bytes[digit(&index, COUNT(edge_bytes))];
    switch (digit(&index, 4)) {
    case 0:
        return add_edge(r, index, gg_to_cr8(first, second), a);
    case 1:
        return add_edge(r, index, gg_from_cr8(first), a);
    case 2:
        return add_edge(r, index, gg_boundary(second % 8, first), a);
    default:
        return add_edge(r, index, gg_request(first), a);
    }
}

/* What stands after the records of a sweep: nothing, a readable record, each way to be unreadable. */
enum { TAILS = 9 };

static void add_tail(unsigned which, struct trace *t)
{
    static const struct {
        uint8_t count, bytes[6];
    } tails[TAILS] = {
        {0, {0}},                    /* the end */
        {3, {0, 1, ENTRY}},          /* an entry */
        {1, {0}},                    /* half a length field */
        {2, {0, 1}},                 /* no body */
        {4, {0, 3, BOUNDARY, 1}},    /* a body without its last byte */
        {2, {0, 0}},                 /* length 0 */
        {3, {0, 1, REQUEST + 1}},    /* an unknown kind */
        {4, {0, 2, ENTRY, 0}},       /* another length */
        {5, {0, 3, BOUNDARY, 9, 0}}, /* an unused flag */
    };
    trace_append(t, tails[which].bytes, tails[which].count);
}

enum { LIMIT_CASES = LIMITS * TAILS, LIMIT_SESSIONS = 12 };

/* Limits around a session's number of records, with each tail after them. */
static bool sweep_limit(struct random *r, uint64_t index, struct attempt *a)
{
    write_session(r, &a->trace);
    struct random of_case = random_for(random_next(r), 0, index);
    uint32_t limit = digit(&index, LIMITS), count = trace_count(&a->trace);
    add_tail(digit(&index, TAILS), &a->trace);
    attempt_draw(a, &of_case);
    a->limit = attempt_limit(limit, count);
    return true;
}

enum { MANY = 20000, MANY_LIMITS = 12, MANY_CASES = MANY_LIMITS * TAILS };

/* So many records of three bytes, by limits up to beyond their number. */
static bool sweep_many(struct random *r, uint64_t index, struct attempt *a)
{
    static const uint32_t limits[MANY_LIMITS] = {0,     9,     10,    99,    9999,  10000,
                                                 10001, 10002, 19999, 20000, 20001, UINT32_MAX};
    const struct gg_event entry = gg_event_of(GG_ENTRY);
    uint32_t limit = limits[digit(&index, MANY_LIMITS)];
    trace_start(&a->trace);
    for (unsigned left = MANY; left > 0; left--)
        trace_add_event(&a->trace, &entry);
    add_tail((unsigned)index, &a->trace);
    attempt_draw(a, r);
    a->limit = limit;
    return true;
}

static const uint32_t total_sizes[] = {0,     1,     2,     3,     4,     61436, 61437, 61438, 61439, 61440,
                                       61441, 61442, 61443, 61444, 65535, 65536, 65537, 65636, 131072};

/* A version byte and the shortest record. */
enum { LEAST_SIZE = 1 + RECORD_LEAST, SIZE_CASES = COUNT(total_sizes) * 3 * 3 };

/* Traces of exactly so many bytes: of the shortest records, or of a session with them after it. */
static bool sweep_size(struct random *r, uint64_t index, struct attempt *a)
{
    static const uint32_t limits[] = {GG_REPLAY_LIMIT, UINT32_MAX, 0};
    uint32_t size = total_sizes[digit(&index, COUNT(total_sizes))], limit = limits[digit(&index, 3)];
    author_start(&author, &a->trace, STYLE_DELIVERY, index == 1);
    if (index > 0 && size > LEAST_SIZE)
        author_write(&author, r, UINT32_MAX, size - LEAST_SIZE);
    author_fill(&author, size < LEAST_SIZE ? LEAST_SIZE : size);
    trace_seal(&a->trace, size);
    attempt_draw(a, r);
    a->limit = limit;
    return true;
}

enum { GATE_CUTS = 32 * CUT_PLACES, LONG_CUTS = 2000 * CUT_PLACES };

const struct family families[] = {
    {"session", 4000, 150000, 1, make_session},
    {"uniform", 2000, 100000, 1, make_uniform},
    {"damaged", 6000, 150000, 1, make_damaged},
    {"noise", 1000, 50000, 1, make_noise},
    {"cut", GATE_CUTS, LONG_CUTS, CUT_PLACES, make_cut},
    {"flags", FLAG_CASES, FLAG_CASES, 1, sweep_flags},
    {"controls", CONTROLS_CASES, CONTROLS_CASES, 1, sweep_controls},
    {"length", LENGTH_CASES, LENGTH_CASES, 1, sweep_length},
    {"read", READ_CASES, READ_CASES, 1, sweep_read},
    {"write", WRITE_CASES, WRITE_CASES, 1, sweep_write},
    {"rdmsr", RDMSR_CASES, RDMSR_CASES, 1, sweep_rdmsr},
    {"wrmsr", WRMSR_CASES, WRMSR_CASES, 1, sweep_wrmsr},
    {"byte", BYTE_CASES, BYTE_CASES, 1, sweep_byte},
    {"limit", LIMIT_CASES * LIMIT_SESSIONS, LIMIT_CASES * 500, LIMIT_CASES, sweep_limit},
    {"many", MANY_CASES, MANY_CASES, 1, sweep_many},
    {"size", SIZE_CASES, SIZE_CASES, 1, sweep_size},
    {NULL, 0, 0, 0, NULL},
};
