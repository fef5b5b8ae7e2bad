/*
 * Writes traces, each with the text that its replay has to print: make STORED MADE
 * Those for the folder STORED are small and kept in the repository; those for MADE are long or many, and made
 * for each run. No program works the texts out: each record stands beside its answer, found by hand from
 * document 01's rules and E5's sentences, and only the lines are counted. Records that can be read are written
 * by the header's recorder, the others byte by byte.
 */
#include "garlandgrid.h"

#include <stdio.h>
#include <stdlib.h>
#include <string.h>

/* The sets of controls of the bench cases, and X: the x2APIC's with registers and delivery. */
enum { V = 0x031, M = 0x033, R = 0x03B, X = 0x03D, ALONE = 0x001, CR8_STORE = 0x100 };
enum { TPR = 0x808, EOI = 0x80B, SELF_IPI = 0x83F };

static const char *folder;
static uint8_t bytes[1 << 20];
static struct gg_trace trace;
static char text[1 << 20];
static size_t text_length;
static unsigned count;

static void stop(const char *words)
{
    fprintf(stderr, "make: %s\n", words);
    exit(1);
}

/* A new trace with its version byte. */
static void begin(void)
{
    trace = gg_trace_start(bytes, sizeof bytes);
    text_length = 0;
    count = 0;
}

/* Bytes as they are, two hex digits each; blanks are left out. */
static void plain(const char *hex)
{
    char digits[3] = "";
    for (; *hex; hex++) {
        if (*hex == ' ')
            continue;
        memcpy(digits, hex++, 2);
        bytes[trace.length++] = (uint8_t)strtoul(digits, NULL, 16);
    }
}

/* The next line of a record; past the limit there is none. */
static void line(int recorded, const char *answer)
{
    if (!recorded)
        stop("a record can't be recorded");
    if (count < GG_REPLAY_LIMIT)
        text_length += (size_t)sprintf(text + text_length, "%u %s\n", ++count, answer);
}

static void save(const char *name, const char *ending, const void *from, size_t length)
{
    char path[4096];
    snprintf(path, sizeof path, "%s/%s.%s", folder, name, ending);
    FILE *file = fopen(path, "wb");
    if (!file || fwrite(from, 1, length, file) != length || fclose(file) != 0)
        stop("a file can't be written");
}

/* The last line, and both files. */
static void end(const char *name, const char *word, unsigned number)
{
    text_length += (size_t)sprintf(text + text_length, "%s %u\n", word, number);
    save(name, "trace", bytes, trace.length);
    save(name, "expected", text, text_length);
}

/* The trace ends here or has reached the limit. */
static void done(const char *name)
{
    end(name, "done", count);
}

/* The record after those that have lines can't be read. */
static void bad(const char *name)
{
    end(name, "bad", count + 1);
}

/* The trace as a whole can't be read. */
static void bad_0(const char *name)
{
    text_length = 0;
    end(name, "bad", 0);
}

/* One record of each kind with its answer; controls are always quiet. */
static void controls(uint32_t flags, uint32_t threshold)
{
    line(gg_trace_controls(&trace, flags, threshold, NULL), "6 0 0");
}

static void entry(const char *answer)
{
    line(gg_trace_entry(&trace), answer);
}

static void request(uint32_t vector, const char *answer)
{
    line(gg_trace_request(&trace, vector), answer);
}

static void memory_read(uint32_t offset, uint8_t size, uint8_t flags, const char *answer)
{
    line(gg_trace_memory_read(&trace, offset, size, flags), answer);
}

static void memory_write(uint32_t offset, uint8_t size, uint8_t flags, uint64_t value, const char *answer)
{
    line(gg_trace_memory_write(&trace, offset, size, value, flags), answer);
}

static void to_cr8(uint8_t value, uint8_t source, const char *answer)
{
    line(gg_trace_to_cr8(&trace, value, source), answer);
}

static void from_cr8(uint8_t target, const char *answer)
{
    line(gg_trace_from_cr8(&trace, target), answer);
}

static void rdmsr(uint32_t index, const char *answer)
{
    line(gg_trace_rdmsr(&trace, index), answer);
}

static void wrmsr(uint32_t index, uint64_t value, const char *answer)
{
    line(gg_trace_wrmsr(&trace, index, value), answer);
}

static void boundary(uint8_t flags, uint8_t activity, const char *answer)
{
    line(gg_trace_boundary(&trace, flags, activity), answer);
}

/* E5's example up to its last record: V, a request of 60H, the entry that recognises it. */
static void begin_example(void)
{
    begin();
    controls(V, 0);
    request(0x60, "6 0 0");
    entry("6 0 0");
}

/* A guest under these controls, nothing requested. */
static void begin_guest(uint32_t flags)
{
    begin();
    controls(flags, 0);
    entry("6 0 0");
}

static void example(void)
{
    begin_example();
    boundary(GG_IF, GG_ACTIVE, "5 96 0");
    done("example");
}

/* One of each kind. CR8 is VTPR's class, MSR 808H its byte; 71H is above its class 5. */
static void each_kind(void)
{
    begin();
    controls(X, 0);
    request(0x60, "6 0 0");
    entry("6 0 0");
    memory_read(GG_VTPR, 4, 0, "2 0 0");
    memory_write(GG_VTPR, 4, 0, 0, "2 0 0");
    to_cr8(5, 1, "6 0 0");
    from_cr8(2, "1 5 0");
    rdmsr(TPR, "1 80 0");
    wrmsr(SELF_IPI, 0x71, "6 0 0");
    boundary(GG_IF, GG_ACTIVE, "5 113 0");
    done("each-kind");
}

/* One of each answer, 0 to 6. */
static void each_answer(void)
{
    begin_guest(X);
    request(0x60, "0 3 0");
    rdmsr(TPR, "1 0 0");
    memory_read(GG_VTPR, 4, 0, "2 0 0");
    wrmsr(EOI, 1, "3 0 0");
    wrmsr(SELF_IPI, 0x0F, "4 56 1008");
    entry("6 0 0");
    wrmsr(SELF_IPI, 0x71, "6 0 0");
    boundary(GG_IF, GG_ACTIVE, "5 113 0");
    done("each-answer");
}

/* A vector is requested, delivered and ended under M. */
static void serve(uint32_t vector, const char *delivered, const char *ended)
{
    request(vector, "6 0 0");
    entry("6 0 0");
    boundary(GG_IF, GG_ACTIVE, delivered);
    memory_write(GG_VEOI, 4, 0, 0, ended);
}

/* An EOI-exit bit in each of the four words: 31H, 71H, 91H, F3H. */
static void fields_eoi_exit(void)
{
    const uint64_t exits[4] = {UINT64_C(1) << 0x31, UINT64_C(1) << (0x71 - 64), UINT64_C(1) << (0x91 - 128),
                               UINT64_C(1) << (0xF3 - 192)};
    begin();
    line(gg_trace_controls(&trace, M, 0, exits), "6 0 0");
    serve(0x31, "5 49 0", "4 45 49");
    serve(0x71, "5 113 0", "4 45 113");
    serve(0x91, "5 145 0", "4 45 145");
    serve(0xF3, "5 243 0", "4 45 243");
    serve(0x32, "5 50 0", "6 0 0");
    done("fields-eoi-exit");
}

/* Thresholds beside VTPR's class, which CR8 sets; VID is off. */
static void fields_threshold(void)
{
    begin_guest(ALONE | CR8_STORE);
    to_cr8(5, 0, "6 0 0");
    from_cr8(3, "4 28 792");
    controls(ALONE, 5);
    entry("6 0 0");
    to_cr8(4, 0, "4 43 0");
    entry("0 4 6");
    controls(ALONE | GG_VIRTUALIZE_APIC_ACCESSES, 5);
    entry("4 43 0");
    controls(ALONE, 4);
    entry("6 0 0");
    to_cr8(5, 0, "6 0 0");
    to_cr8(3, 0, "4 43 0");
    done("fields-threshold");
}

/* Interrupt-window exiting, then each blocking and activity with 60H recognised. */
static void fields_boundary(void)
{
    begin();
    controls(V | GG_INTERRUPT_WINDOW_EXITING, 0);
    request(0x60, "6 0 0");
    entry("6 0 0");
    boundary(0, GG_ACTIVE, "6 0 0");
    boundary(GG_IF, GG_ACTIVE, "4 7 0");
    controls(V, 0);
    entry("6 0 0");
    boundary(0, GG_ACTIVE, "6 0 0");
    boundary(GG_IF | GG_BLOCKING_BY_STI, GG_ACTIVE, "6 0 0");
    boundary(GG_IF | GG_BLOCKING_BY_MOV_SS, GG_ACTIVE, "6 0 0");
    boundary(GG_IF | GG_BLOCKING_BY_STI | GG_BLOCKING_BY_MOV_SS, GG_HLT, "6 0 0");
    boundary(GG_BLOCKING_BY_STI, GG_ACTIVE, "6 0 0");
    boundary(GG_IF, GG_SHUTDOWN, "6 0 0");
    boundary(GG_IF, GG_WAIT_FOR_SIPI, "6 0 0");
    boundary(GG_IF, GG_HLT, "5 96 0");
    done("fields-boundary");
}

/* Fetch, already virtualised, both. Exit 44's qualification is the offset, and 4096 more for a write, 8192 for a
   fetch. */
static void fields_memory(void)
{
    begin_guest(M);
    memory_read(GG_VTPR, 4, 0, "1 0 0");
    memory_read(GG_VTPR, 4, GG_INSTRUCTION_FETCH, "4 44 8320");
    entry("6 0 0");
    memory_read(GG_VTPR, 4, GG_ALREADY_VIRTUALISED, "4 44 128");
    entry("6 0 0");
    memory_read(GG_VTPR, 4, GG_INSTRUCTION_FETCH | GG_ALREADY_VIRTUALISED, "4 44 8320");
    entry("6 0 0");
    memory_write(GG_VTPR, 4, GG_ALREADY_VIRTUALISED, 0, "4 44 4224");
    entry("6 0 0");
    memory_write(0xFFF, 1, 0, 0xFF, "4 44 8191");
    entry("6 0 0");
    memory_write(GG_VTPR, 4, 0, 0x12345678, "6 0 0");
    memory_read(GG_VTPR, 4, 0, "1 120 0");
    memory_read(GG_VTPR, 8, 0, "4 44 128");
    done("fields-memory");
}

/* Indexes and values of RDMSR and WRMSR, all of their bytes. */
static void fields_msr(void)
{
    begin_guest(X);
    wrmsr(TPR, 0xFF, "6 0 0");
    rdmsr(TPR, "1 255 0");
    wrmsr(TPR, 0x100, "3 0 0");
    wrmsr(TPR, UINT64_C(1) << 63, "3 0 0");
    wrmsr(TPR | 0x80000000, 0x20, "2 0 0");
    wrmsr(TPR | 0x00010000, 0x20, "2 0 0");
    rdmsr(TPR, "1 255 0");
    rdmsr(TPR | 0x80000000, "2 0 0");
    rdmsr(0x7FF, "2 0 0");
    rdmsr(0x900, "2 0 0");
    wrmsr(TPR, 0, "6 0 0");
    wrmsr(SELF_IPI, 0x10, "6 0 0");
    boundary(GG_IF, GG_ACTIVE, "5 16 0");
    wrmsr(EOI, 0, "6 0 0");
    done("fields-msr");
}

/* The largest value that a run from fresh reads: the four bytes of a register. */
static void fields_largest(void)
{
    begin_guest(R);
    memory_write(0x0D0, 4, 0, 0xFFFFFFFF, "4 56 208");
    entry("6 0 0");
    memory_read(0x0D0, 4, 0, "1 4294967295 0");
    memory_read(0x000, 1, 0, "4 44 0");
    controls(X, 0);
    entry("6 0 0");
    rdmsr(0x80D, "1 4294967295 0");
    done("fields-largest");
}

/* After K1 under M: bits 11 and 14 are not looked at, 0FH is no vector to send, 10H waits for 60H's end. */
static void bench_k6_k7(void)
{
    begin();
    controls(M, 0);
    request(0x60, "6 0 0");
    entry("6 0 0");
    boundary(GG_IF, GG_ACTIVE, "5 96 0");
    memory_write(GG_VICR_LO, 4, 0, 0x00040871, "6 0 0");
    boundary(GG_IF, GG_ACTIVE, "5 113 0");
    memory_write(GG_VEOI, 4, 0, 0, "6 0 0");
    memory_write(GG_VICR_LO, 4, 0, 0x00044071, "6 0 0");
    boundary(GG_IF, GG_ACTIVE, "5 113 0");
    memory_write(GG_VEOI, 4, 0, 0, "6 0 0");
    memory_write(GG_VICR_LO, 4, 0, 0x0004000F, "4 56 768");
    entry("6 0 0");
    memory_write(GG_VICR_LO, 4, 0, 0x00040010, "6 0 0");
    boundary(GG_IF, GG_ACTIVE, "6 0 0");
    memory_write(GG_VEOI, 4, 0, 0, "6 0 0");
    boundary(GG_IF, GG_ACTIVE, "5 16 0");
    done("bench-k6-k7");
}

/* Reads and writes of single bytes and of a closed offset, under M and R. */
static void bench_k10_k11(void)
{
    begin_guest(R);
    memory_read(0x083, 1, 0, "1 0 0");
    memory_write(0x082, 2, 0, 0xABCD, "4 56 130");
    entry("6 0 0");
    memory_read(0x083, 1, 0, "1 171 0");
    memory_write(0x0A0, 4, 0, 0, "4 44 4256");
    controls(M, 0);
    entry("6 0 0");
    memory_read(0x083, 1, 0, "4 44 131");
    done("bench-k10-k11");
}

/* Vector 0 is requested; its class is above no other. */
static void bench_k12(void)
{
    begin();
    controls(V, 0);
    request(0x00, "6 0 0");
    entry("6 0 0");
    boundary(GG_IF, GG_ACTIVE, "6 0 0");
    done("bench-k12");
}

/* Before any controls: nothing is virtualised, and the request waits. */
static void controls_before_first(void)
{
    begin();
    request(0x60, "6 0 0");
    entry("6 0 0");
    memory_read(GG_VTPR, 4, 0, "2 0 0");
    memory_write(GG_VICR_LO, 4, 0, 0x00040071, "2 0 0");
    to_cr8(5, 1, "2 0 0");
    from_cr8(2, "2 0 0");
    rdmsr(TPR, "2 0 0");
    wrmsr(SELF_IPI, 0x71, "2 0 0");
    boundary(GG_IF, GG_ACTIVE, "6 0 0");
    done("controls-before-first");
}

/* In the guest controls are quiet and wait for an entry; the last before it count, and for later entries too. */
static void controls_in_guest(void)
{
    begin_guest(M);
    controls(M | CR8_STORE, 0);
    from_cr8(2, "1 0 0");
    memory_read(0x000, 4, 0, "4 44 0");
    entry("6 0 0");
    from_cr8(2, "4 28 536");
    controls(GG_VIRTUALIZE_X2APIC_MODE, 0);
    controls(M | CR8_STORE, 0);
    entry("6 0 0");
    from_cr8(0, "4 28 24");
    entry("6 0 0");
    from_cr8(15, "4 28 3864");
    done("controls-in-guest");
}

/* Each field just out of bounds, and far out. */
static void out_of_bounds(void)
{
    memory_read(0x1000, 1, 0, "0 2 0");
    memory_read(0xFFFF, 1, 0, "0 2 0");
    memory_read(GG_VTPR, 0, 0, "0 2 0");
    memory_read(GG_VTPR, 3, 0, "0 2 0");
    memory_read(GG_VTPR, 16, 0, "0 2 0");
    memory_read(GG_VTPR, 0xFF, 0, "0 2 0");
    memory_write(0x1000, 1, 0, 0, "0 2 0");
    memory_write(GG_VTPR, 3, 0, 0, "0 2 0");
    memory_write(GG_VTPR, 1, 0, 0x100, "0 2 0");
    memory_write(GG_VTPR, 2, 0, 0x10000, "0 2 0");
    memory_write(GG_VTPR, 4, 0, UINT64_C(1) << 32, "0 2 0");
    memory_write(GG_VTPR, 1, 0, UINT64_C(1) << 63, "0 2 0");
    memory_write(GG_VTPR, 4, GG_INSTRUCTION_FETCH, 0, "0 2 0");
    memory_write(GG_VTPR, 4, GG_INSTRUCTION_FETCH | GG_ALREADY_VIRTUALISED, 0, "0 2 0");
    to_cr8(16, 0, "0 2 0");
    to_cr8(0xFF, 0, "0 2 0");
    to_cr8(0, 16, "0 2 0");
    from_cr8(16, "0 2 0");
    from_cr8(0xFF, "0 2 0");
    boundary(GG_IF, 4, "0 2 0");
    boundary(0, 0xFF, "0 2 0");
}

/* In the guest nothing is changed by them; in root mode the bounds are tested before the mode. */
static void refused_bounds(void)
{
    begin_guest(M);
    out_of_bounds();
    memory_read(GG_VTPR, 4, 0, "1 0 0");
    done("refused-bounds");
    begin();
    out_of_bounds();
    entry("6 0 0");
    done("refused-bounds-root");
}

/* Each field at the edge of its bounds; without control 1 memory passes through. */
static void within_bounds(void)
{
    begin_guest(V);
    memory_read(0xFFF, 8, GG_INSTRUCTION_FETCH | GG_ALREADY_VIRTUALISED, "2 0 0");
    memory_write(0xFFF, 1, GG_ALREADY_VIRTUALISED, 0xFF, "2 0 0");
    memory_write(0x000, 2, 0, 0xFFFF, "2 0 0");
    memory_write(0x000, 4, 0, 0xFFFFFFFF, "2 0 0");
    memory_write(0x000, 8, 0, UINT64_MAX, "2 0 0");
    to_cr8(15, 15, "6 0 0");
    from_cr8(15, "1 15 0");
    boundary(0, GG_WAIT_FOR_SIPI, "6 0 0");
    done("within-bounds");
}

/* Each event in the mode that is not its own; 70H, refused in the guest, is not delivered. */
static void refused_mode(void)
{
    begin();
    controls(V, 0);
    memory_read(GG_VTPR, 4, 0, "0 3 0");
    memory_write(GG_VTPR, 4, 0, 0, "0 3 0");
    to_cr8(5, 1, "0 3 0");
    from_cr8(2, "0 3 0");
    rdmsr(TPR, "0 3 0");
    wrmsr(TPR, 0, "0 3 0");
    boundary(GG_IF, GG_ACTIVE, "0 3 0");
    request(0x60, "6 0 0");
    entry("6 0 0");
    entry("0 3 0");
    request(0x70, "0 3 0");
    boundary(GG_IF, GG_ACTIVE, "5 96 0");
    done("refused-mode");
}

/* An entry with these controls. */
static void enter(uint32_t flags, uint32_t threshold, const char *answer)
{
    controls(flags, threshold);
    entry(answer);
}

/* Checks 1, 2, 3, 4 and 6, and which comes first; check 5 is of controls that a trace can't hold. */
static void refused_checks(void)
{
    begin();
    enter(GG_VIRTUALIZE_X2APIC_MODE, 0, "0 4 1");
    enter(GG_APIC_REGISTER_VIRTUALIZATION, 0, "0 4 1");
    enter(GG_VIRTUAL_INTERRUPT_DELIVERY, 0, "0 4 1");
    enter(0x016, 0, "0 4 1");
    enter(0x007, 0, "0 4 2");
    enter(0x017, 0, "0 4 2");
    enter(0x011, 0, "0 4 3");
    enter(0x011, 16, "0 4 3");
    enter(ALONE, 16, "0 4 4");
    enter(ALONE, 0x01000000, "0 4 4");
    enter(ALONE | GG_VIRTUALIZE_APIC_ACCESSES, 16, "0 4 4");
    enter(ALONE, 1, "0 4 6");
    enter(ALONE, 15, "0 4 6");
    enter(ALONE | GG_VIRTUALIZE_X2APIC_MODE, 1, "0 4 6");
    enter(ALONE | GG_VIRTUALIZE_APIC_ACCESSES, 1, "4 43 0");
    enter(V, 0xFFFFFFFF, "6 0 0");
    done("refused-checks");
}

/* Adds a record that can't be read to E5's example without its last record, and one more that could be. */
static void unreadable(const char *name, const char *hex)
{
    begin_example();
    plain(hex);
    plain("0003 08 01 00");
    bad(name);
}

/* The same, with nothing behind it. */
static void cut(const char *name, const char *hex)
{
    begin_example();
    plain(hex);
    bad(name);
}

static void bad_records(void)
{
    cut("bad-cut-length", "00");
    cut("bad-cut-before-body", "0003");
    cut("bad-cut-body", "0003 08 01");
    unreadable("bad-length-beyond", "FFFF 08 01 00");
    cut("bad-length-0-last", "0000");
    unreadable("bad-length-0", "0000");
    unreadable("bad-length-less", "0002 08 01");
    unreadable("bad-length-more", "0004 08 01 00 00");
    unreadable("bad-kind-10", "0003 0A 01 00");
    unreadable("bad-kind-255", "0001 FF");
    unreadable("bad-controls-bit-9", "0027 00 0231 00000000 0000000000000000 0000000000000000"
                                     " 0000000000000000 0000000000000000");
    unreadable("bad-controls-bit-15", "0027 00 8031 00000000 0000000000000000 0000000000000000"
                                      " 0000000000000000 0000000000000000");
    unreadable("bad-read-bit-2", "0005 02 0080 04 04");
    unreadable("bad-write-bit-2", "000D 03 0080 04 04 0000000000000000");
    unreadable("bad-boundary-bit-3", "0003 08 09 00");
    begin();
    plain("0001 0A");
    bad("bad-first");
}

/* The version byte: missing, alone, wrong. */
static void versions(void)
{
    begin();
    trace.length = 0;
    bad_0("version-missing");
    begin();
    done("version-alone");
    begin_example();
    bytes[0] = 0;
    bad_0("version-0");
    begin_example();
    bytes[0] = 2;
    bad_0("version-2");
}

static void stored(void)
{
    example();
    each_kind();
    each_answer();
    fields_eoi_exit();
    fields_threshold();
    fields_boundary();
    fields_memory();
    fields_msr();
    fields_largest();
    bench_k6_k7();
    bench_k10_k11();
    bench_k12();
    controls_before_first();
    controls_in_guest();
    refused_bounds();
    within_bounds();
    refused_mode();
    refused_checks();
    bad_records();
    versions();
}

/* The length of each kind's body. */
static const size_t lengths[10] = {39, 1, 5, 13, 3, 2, 5, 13, 3, 2};

/* One record whose body is zero but for its kind and one more byte, then a request. */
static void single(const char *name, uint8_t kind, size_t length, size_t at, uint8_t byte)
{
    uint8_t body[512] = {0};
    body[at] = byte;
    body[0] = kind;
    begin();
    request(0x60, "6 0 0");
    gg_trace_body(&trace, body, length);
    plain("0002 09 60");
    bad(name);
}

/* Each kind with a byte less than it has, with one more, and with 256 more, told by the length's first byte. */
static void wrong_lengths(void)
{
    char name[64];
    for (uint8_t kind = 0; kind < 10; kind++) {
        snprintf(name, sizeof name, "length-less-%u", kind);
        single(name, kind, lengths[kind] - 1, 0, 0);
        snprintf(name, sizeof name, "length-more-%u", kind);
        single(name, kind, lengths[kind] + 1, 0, 0);
        snprintf(name, sizeof name, "length-256-more-%u", kind);
        single(name, kind, lengths[kind] + 256, 0, 0);
    }
}

/* Each unused bit of a kind's flags, whose highest byte stands at a place of the body. */
static void unused_bits(const char *words, uint8_t kind, size_t at, unsigned first, unsigned last)
{
    char name[64];
    for (unsigned bit = first; bit <= last; bit++) {
        snprintf(name, sizeof name, "unused-%s-%u", words, bit);
        single(name, kind, lengths[kind], at, (uint8_t)(1u << bit % 8));
    }
}

/* So many requests, all quiet. */
static void requests(unsigned number)
{
    begin();
    for (unsigned i = 0; i < number; i++)
        request(i % 256, "6 0 0");
}

/* On either side of the limit of records; what stands behind it is never read. */
static void limits(void)
{
    requests(GG_REPLAY_LIMIT - 1);
    done("records-9999");
    requests(GG_REPLAY_LIMIT - 1);
    plain("0001 0A");
    bad("records-9999-and-unreadable");
    requests(GG_REPLAY_LIMIT);
    done("records-10000");
    requests(GG_REPLAY_LIMIT + 1);
    done("records-10001");
    requests(GG_REPLAY_LIMIT);
    plain("0001 0A");
    done("records-10000-and-unreadable");
    requests(GG_REPLAY_LIMIT);
    plain("00");
    done("records-10000-and-cut");
}

/* As many records as the longest trace holds: entries, the second and all later ones refused in the guest. */
static void most_records(void)
{
    begin();
    entry("6 0 0");
    while (gg_trace_has_room(&trace, 3))
        entry("0 3 0");
    done("records-20479");
}

/* 61,440 bytes, 1 + 1498 * 41 + 3 * 7, in fewer records than the limit. */
static void longest(void)
{
    begin();
    for (int i = 0; i < 1498; i++)
        controls(V, 0);
    for (int i = 0; i < 3; i++)
        rdmsr(TPR, "0 3 0");
    if (trace.length != GG_TRACE_LENGTH)
        stop("the longest trace has another length");
}

/* On either side of the longest trace. */
static void sizes(void)
{
    longest();
    done("bytes-61440");
    longest();
    trace.length--;
    text_length -= strlen("1501 0 3 0\n");
    count--;
    bad("bytes-61439");
    longest();
    plain("00");
    bad_0("bytes-61441");
    requests(GG_REPLAY_LIMIT);
    memset(bytes + trace.length, 0, sizeof bytes - trace.length);
    trace.length = sizeof bytes;
    bad_0("bytes-1048576");
}

static void made(void)
{
    wrong_lengths();
    unused_bits("controls", 0, 1, 9, 15);
    unused_bits("read", 2, 4, 2, 7);
    unused_bits("write", 3, 4, 2, 7);
    unused_bits("boundary", 8, 1, 3, 7);
    limits();
    most_records();
    sizes();
}

int main(int argc, char **argv)
{
    if (argc != 3)
        stop("it takes two arguments, the folders to write to");
    folder = argv[1];
    stored();
    folder = argv[2];
    made();
    return 0;
}
