/*
 * Holds the header's recorder to its words: the bytes of each record, what the format can't hold, and what
 * happens where the room ends. It prints nothing but what is wrong, and ends with 1 then.
 */
#include "garlandgrid.h"

#include <stdio.h>
#include <stdlib.h>
#include <string.h>

/* What every byte of the buffer is before a trace is started there. */
enum { UNTOUCHED = 0xA5 };

static uint8_t bytes[GG_TRACE_LENGTH + 64];
static struct gg_trace trace;
static int wrong;

static void expect(int holds, const char *words)
{
    if (!holds)
        printf("wrong: %s\n", words);
    wrong |= !holds;
}

static void begin(size_t room)
{
    memset(bytes, UNTOUCHED, sizeof bytes);
    trace = gg_trace_start(bytes, room);
}

/* Whether no byte from the trace's end on has been touched. */
static int untouched(void)
{
    size_t at = trace.length;
    while (at < sizeof bytes && bytes[at] == UNTOUCHED)
        at++;
    return at == sizeof bytes;
}

/* The bytes so far, as hex digits with blanks between. */
static void expect_bytes(const char *hex)
{
    size_t at = 0;
    char digits[3] = "";
    for (const char *next = hex; *next; next++) {
        if (*next == ' ')
            continue;
        memcpy(digits, next++, 2);
        expect(at < trace.length && bytes[at] == strtoul(digits, NULL, 16), hex);
        at++;
    }
    expect(at == trace.length && untouched(), hex);
}

static const uint64_t exits[4] = {0x0102030405060708, 0x1112131415161718, 0x2122232425262728,
                                  0x3132333435363738};

#define EXITS "0102030405060708 1112131415161718 2122232425262728 3132333435363738 "
#define NONE "0000000000000000 0000000000000000 0000000000000000 0000000000000000 "

/* Each kind by its own function. */
static void kinds(void)
{
    begin(sizeof bytes);
    expect(gg_trace_controls(&trace, 0x1FE, 0xA1A2A3A4, exits), "controls");
    expect(gg_trace_controls(&trace, 0x031, 0, NULL), "controls without EOI-exit bits");
    expect(gg_trace_entry(&trace), "entry");
    expect(gg_trace_memory_read(&trace, 0xB1B2, 0xB3, 3), "memory read");
    expect(gg_trace_memory_write(&trace, 0xC1C2, 0xC3, 0xC4C5C6C7C8C9CACB, 2), "memory write");
    expect(gg_trace_to_cr8(&trace, 0xD1, 0xD2), "to CR8");
    expect(gg_trace_from_cr8(&trace, 0xD3), "from CR8");
    expect(gg_trace_rdmsr(&trace, 0xE1E2E3E4), "RDMSR");
    expect(gg_trace_wrmsr(&trace, 0xE5E6E7E8, 0xF1F2F3F4F5F6F7F8), "WRMSR");
    expect(gg_trace_boundary(&trace, 7, 0xFF), "boundary");
    expect(gg_trace_request(&trace, 0xFF), "request");
    expect_bytes("01 0027 00 01FE A1A2A3A4 " EXITS "0027 00 0031 00000000 " NONE
                 "0001 01 0005 02 B1B2 B3 03 000D 03 C1C2 C3 02 C4C5C6C7C8C9CACB 0003 04 D1 D2 0002 05 D3 "
                 "0005 06 E1E2E3E4 000D 07 E5E6E7E8 F1F2F3F4F5F6F7F8 0003 08 07 FF 0002 09 FF");
}

/* Whether an event is recorded; where it isn't, the trace has not grown. */
static int add(struct gg_event event)
{
    size_t before = trace.length;
    int recorded = gg_trace_event(&trace, &event);
    expect(recorded ? trace.length > before : trace.length == before, "all of a record or nothing");
    return recorded;
}

/* Each event as gg_step gets it; controls only where they are not the last. */
static void events(void)
{
    begin(sizeof bytes);
    expect(add(gg_entry(0, 0, NULL)) && add(gg_entry(0, 0, NULL)), "entry without controls");
    expect(add(gg_entry(0x1FE, 0xA1A2A3A4, exits)) && add(gg_entry(0x1FE, 0xA1A2A3A4, exits)), "entry");
    expect(add(gg_entry(0x1FE, 0xA1A2A3A4, NULL)), "entry with other EOI-exit bits");
    expect(add(gg_memory_read(0xB1B2, 0xB3, 3)), "memory read");
    expect(add(gg_memory_write(0xC1C2, 0xC3, 0xC4C5C6C7C8C9CACB, 2)), "memory write");
    expect(add(gg_to_cr8(0xD1, 0xD2)) && add(gg_from_cr8(0xD3)), "CR8");
    expect(add(gg_rdmsr(0xE1E2E3E4)) && add(gg_wrmsr(0xE5E6E7E8, 0xF1F2F3F4F5F6F7F8)), "MSR");
    expect(add(gg_boundary(7, 0xFF)) && add(gg_request(0xFF)), "boundary and request");
    expect_bytes("01 0027 00 0000 00000000 " NONE "0001 01 0001 01 "
                 "0027 00 01FE A1A2A3A4 " EXITS "0001 01 0001 01 0027 00 01FE A1A2A3A4 " NONE "0001 01 "
                 "0005 02 B1B2 B3 03 000D 03 C1C2 C3 02 C4C5C6C7C8C9CACB 0003 04 D1 D2 0002 05 D3 "
                 "0005 06 E1E2E3E4 000D 07 E5E6E7E8 F1F2F3F4F5F6F7F8 0003 08 07 FF 0002 09 FF");
}

/* What the format can't hold. */
static void not_held(void)
{
    begin(sizeof bytes);
    for (unsigned bit = 9; bit < 32; bit++)
        expect(!gg_trace_controls(&trace, UINT32_C(1) << bit, 0, NULL), "a control above 8");
    for (unsigned bit = 9; bit < 64; bit++) {
        struct gg_event event = gg_entry(0, 0, NULL);
        event.value = UINT64_C(1) << bit;
        expect(!gg_trace_event(&trace, &event), "an entry with more than controls 0 to 8");
    }
    expect(!add(gg_entry_notified(0, 0, NULL, 1)), "a notification vector");
    for (unsigned flags = 4; flags < 256; flags++) {
        expect(!gg_trace_memory_read(&trace, 0, 1, (uint8_t)flags), "an unused flag of a read");
        expect(!gg_trace_memory_write(&trace, 0, 1, 0, (uint8_t)flags), "an unused flag of a write");
        expect(flags < 8 || !gg_trace_boundary(&trace, (uint8_t)flags, 0), "an unused flag of a boundary");
    }
    expect(!gg_trace_memory_read(&trace, 0x10000, 1, 0), "an offset above FFFFH");
    expect(!gg_trace_memory_write(&trace, 0x10000, 1, 0, 0), "an offset above FFFFH");
    expect(!gg_trace_to_cr8(&trace, 0x100, 0), "a CR8 value above 255");
    expect(!gg_trace_to_cr8(&trace, UINT64_C(1) << 32, 0), "a CR8 value above 255");
    expect(!gg_trace_request(&trace, 0x100), "a vector above 255");
    for (unsigned kind = 0; kind < 256; kind++)
        expect((kind >= GG_ENTRY && kind <= GG_REQUEST) || !add(gg_event_of((uint8_t)kind)), "an unknown kind");
    expect_bytes("01");
}

/* Every room: a record is written whole or not at all, and an entry with its controls or not at all. */
static void rooms(void)
{
    for (size_t room = 0; room < 60; room++) {
        begin(room);
        expect(trace.length == (room > 0), "the version byte");
        expect(add(gg_request(0x60)) == (room >= 5), "a request in room for it");
        expect(add(gg_entry(0x031, 0, NULL)) == (room >= 5 + 44), "an entry in room for it and its controls");
        expect(add(gg_entry(0x031, 0, NULL)) == (room >= 5 + 44 + 3), "the same entry again");
        expect(trace.length <= room && untouched(), "nothing behind the trace");
    }
    trace = gg_trace_start(NULL, 0);
    expect(!add(gg_request(0x60)) && !add(gg_entry(0, 0, NULL)) && trace.length == 0, "no buffer");
}

/* The longest trace: 1 + 20479 * 3 bytes of entries leave two, 1 + 15359 * 4 + 3 none. */
static void longest(void)
{
    begin(sizeof bytes);
    unsigned count = 0;
    while (gg_trace_entry(&trace))
        count++;
    expect(count == 20479 && trace.length == 61438 && untouched(), "entries up to the longest trace");
    begin(sizeof bytes);
    for (count = 0; count < 15359; count++)
        expect(gg_trace_request(&trace, 0), "a request within the longest trace");
    expect(gg_trace_entry(&trace) && trace.length == 61440, "the last three bytes");
    expect(!gg_trace_entry(&trace) && !gg_trace_has_room(&trace, 1) && untouched(), "nothing behind them");
    begin(sizeof bytes);
    expect(!gg_trace_body(&trace, bytes, SIZE_MAX) && untouched(), "a body without end");
}

int main(void)
{
    kinds();
    events();
    not_held();
    rooms();
    longest();
    return wrong;
}
