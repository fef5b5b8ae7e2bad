/* Hand-written traces; a text stands here as the documents have it, worked out by hand. */
#include "replay_named.h"

#include "attempt.h"
#include "author.h"
#include "listing.h"

#include <inttypes.h>
#include <stdio.h>
#include <string.h>

/* Records, each with its length field. */
#define ZEROS 0, 0, 0, 0, 0, 0, 0, 0
#define CONTROLS_WITH(high, low, threshold) 0, 39, 0, high, low, 0, 0, 0, threshold
#define SET(low, threshold) CONTROLS_WITH(0, low, threshold), ZEROS, ZEROS, ZEROS, ZEROS
#define ENTER 0, 1, 1
#define READ_AT(high, low, size, flags) 0, 5, 2, high, low, size, flags
#define WRITE_AT(high, low, size, flags, ...) 0, 13, 3, high, low, size, flags, __VA_ARGS__
#define TO(value, general) 0, 3, 4, value, general
#define FROM(general) 0, 2, 5, general
#define READ_MSR(high, low) 0, 5, 6, 0, 0, high, low
#define WRITE_MSR(high, low, ...) 0, 13, 7, 0, 0, high, low, __VA_ARGS__
#define BOUNDARY_OF(flags, activity) 0, 3, 8, flags, activity
#define OPEN BOUNDARY_OF(1, 0)
#define ASK(vector) 0, 2, 9, vector

/* A value in eight bytes of which the last four count. */
#define VALUE(a, b, c, d) 0, 0, 0, 0, a, b, c, d

/* The controls that document 01 calls V, M and R, and R with x2APIC mode in place of APIC accesses. */
enum { V = 0x31, M = 0x33, R = 0x3B, X2_R = 0x3D };

#define BYTES(...) (const uint8_t[]){__VA_ARGS__}, sizeof(const uint8_t[]){__VA_ARGS__}

/* The document's own example. */
#define EXAMPLE 1, SET(V, 0), ASK(0x60), ENTER, OPEN
#define QUIET_3 "1 6 0 0\n2 6 0 0\n3 6 0 0\n"
#define EXAMPLE_LINES QUIET_3 "4 5 96 0\n"

enum { USUAL = GG_REPLAY_LIMIT };

static const struct named_trace {
    const char *name;
    const uint8_t *bytes;
    size_t length;
    uint32_t limit;
    const char *text, *words;
} traces[] = {
    {"E5", BYTES(EXAMPLE), USUAL, EXAMPLE_LINES "done 4\n", "document 02's own trace"},
    {"NO-BYTES", NULL, 0, USUAL, "bad 0\n", "a missing version byte"},
    {"VERSION-ALONE", BYTES(1), USUAL, "done 0\n", "no records"},
    {"VERSION-0", BYTES(0, ENTER), USUAL, "bad 0\n", "a wrong version byte"},
    {"VERSION-2", BYTES(2, ENTER), USUAL, "bad 0\n", "a wrong version byte"},
    {"VERSION-FIRST", BYTES(3, 0), 0, "bad 0\n", "the version is tested before the limit and the records"},
    {"LIMIT-3", BYTES(EXAMPLE), 3, QUIET_3 "done 3\n", "the run stops after a stated number of records"},
    {"LIMIT-4", BYTES(EXAMPLE), 4, EXAMPLE_LINES "done 4\n", "the limit is the number of records"},
    {"LIMIT-0", BYTES(EXAMPLE), 0, "done 0\n", "no record is asked for"},
    {"LIMIT-BEFORE-BAD", BYTES(EXAMPLE, 0, 1, 10), 4, EXAMPLE_LINES "done 4\n",
     "at the limit it doesn't count what follows"},
    {"LIMIT-AFTER-BAD", BYTES(EXAMPLE, 0, 1, 10), 5, EXAMPLE_LINES "bad 5\n",
     "under the limit the next record has to be readable"},
    {"LIMIT-MOST", BYTES(EXAMPLE), UINT32_MAX, EXAMPLE_LINES "done 4\n", "the largest limit"},
    {"CUT-LENGTH", BYTES(EXAMPLE, 0), USUAL, EXAMPLE_LINES "bad 5\n", "half a length field"},
    {"CUT-AFTER-LENGTH", BYTES(EXAMPLE, 0, 1), USUAL, EXAMPLE_LINES "bad 5\n", "a length and no body"},
    {"CUT-BODY", BYTES(1, ENTER, 0, 3, 8, 1), USUAL, "1 6 0 0\nbad 2\n", "a body without its last byte"},
    {"CUT-FAR", BYTES(1, ENTER, 0xFF, 0xFF, 1), USUAL, "1 6 0 0\nbad 2\n", "a body far beyond the trace"},
    {"LENGTH-ORDER", BYTES(1, 1, 0, 1), USUAL, "bad 1\n", "0100H is a length of 256"},
    {"LENGTH-0", BYTES(1, 0, 0, ENTER), USUAL, "bad 1\n", "a record without a kind"},
    {"LENGTH-LONGER", BYTES(1, 0, 2, 1, 0), USUAL, "bad 1\n", "an entry of two bytes"},
    {"LENGTH-SHORTER", BYTES(1, 0, 1, 9, ENTER), USUAL, "bad 1\n", "a request without its vector"},
    {"LENGTH-OTHER", BYTES(1, 0, 5, 3, 0, 0x80, 4, 0), USUAL, "bad 1\n", "a write of a read's length"},
    {"KIND-10", BYTES(1, 0, 2, 10, 0), USUAL, "bad 1\n", "an unknown kind"},
    {"KIND-255", BYTES(1, 0, 1, 255), USUAL, "bad 1\n", "an unknown kind"},
    {"FLAG-9", BYTES(1, CONTROLS_WITH(2, V, 0), ZEROS, ZEROS, ZEROS, ZEROS), USUAL, "bad 1\n",
     "bit 9 of the controls"},
    {"FLAG-15", BYTES(1, CONTROLS_WITH(0x80, V, 0), ZEROS, ZEROS, ZEROS, ZEROS), USUAL, "bad 1\n",
     "bit 15 of the controls"},
    {"FLAG-8", BYTES(1, CONTROLS_WITH(1, 0, 0), ZEROS, ZEROS, ZEROS, ZEROS, ENTER, FROM(3)), USUAL,
     "1 6 0 0\n2 6 0 0\n3 4 28 792\ndone 3\n", "bit 8 of the controls is CR8-store exiting"},
    {"FLAG-OF-READ", BYTES(1, READ_AT(0, 0x80, 4, 4)), USUAL, "bad 1\n", "an unused flag of a read"},
    {"FLAG-OF-WRITE", BYTES(1, WRITE_AT(0, 0x80, 4, 0x80, ZEROS)), USUAL, "bad 1\n", "of a write"},
    {"FLAG-OF-BOUNDARY", BYTES(1, BOUNDARY_OF(9, 0)), USUAL, "bad 1\n", "of a boundary"},
    {"FETCH-OF-WRITE", BYTES(1, WRITE_AT(0, 0x80, 4, 1, ZEROS)), USUAL, "1 0 2 0\ndone 1\n",
     "a used flag: out of bounds for a write"},
    {"FLAG-BEFORE-BOUNDS", BYTES(1, READ_AT(0x10, 0, 3, 4)), USUAL, "bad 1\n",
     "what can't be read is not refused"},
    {"OUT-OF-BOUNDS",
     BYTES(1, READ_AT(0x10, 0, 4, 0), READ_AT(0, 0x80, 3, 0), WRITE_AT(0, 0x80, 1, 0, VALUE(0, 0, 1, 0)),
           TO(16, 0), TO(0, 16), FROM(16), BOUNDARY_OF(1, 4)),
     USUAL, "1 0 2 0\n2 0 2 0\n3 0 2 0\n4 0 2 0\n5 0 2 0\n6 0 2 0\n7 0 2 0\ndone 7\n",
     "a field out of bounds is refusal 2, tested before the mode, and has its line"},
    {"MODES", BYTES(1, OPEN, ENTER, ENTER, ASK(1), OPEN), USUAL,
     "1 0 3 0\n2 6 0 0\n3 0 3 0\n4 0 3 0\n5 6 0 0\ndone 5\n", "refusal 3 in either mode"},
    {"CHECKS",
     BYTES(1, SET(0x10, 0), ENTER, SET(0x07, 0), ENTER, SET(0x11, 0), ENTER, SET(1, 16), ENTER, SET(1, 1),
           ENTER, SET(3, 1), ENTER),
     USUAL,
     "1 6 0 0\n2 0 4 1\n3 6 0 0\n4 0 4 2\n5 6 0 0\n6 0 4 3\n7 6 0 0\n8 0 4 4\n9 6 0 0\n10 0 4 6\n"
     "11 6 0 0\n12 4 43 0\ndone 12\n",
     "the entry checks, and exit 43 with APIC accesses"},
    {"BEFORE-CONTROLS", BYTES(1, ENTER, FROM(0), READ_AT(0, 0x80, 4, 0), READ_MSR(8, 8), OPEN), USUAL,
     "1 6 0 0\n2 2 0 0\n3 2 0 0\n4 2 0 0\n5 6 0 0\ndone 5\n", "before the first controls all are zero"},
    {"CONTROLS-LATER", BYTES(1, ENTER, SET(1, 0), FROM(0), ENTER, FROM(0)), USUAL,
     "1 6 0 0\n2 6 0 0\n3 2 0 0\n4 0 3 0\n5 2 0 0\ndone 5\n", "controls in guest mode wait for an entry"},
    {"CONTROLS-LAST", BYTES(1, SET(0x10, 0), SET(1, 0), ENTER, FROM(0)), USUAL, QUIET_3 "4 1 0 0\ndone 4\n",
     "the last controls count"},
    {"CONTROLS-STAY", BYTES(1, SET(0xC1, 0), ENTER, TO(1, 2), ENTER, OPEN, ENTER, FROM(0)), USUAL,
     "1 6 0 0\n2 6 0 0\n3 4 28 520\n4 6 0 0\n5 4 7 0\n6 6 0 0\n7 1 0 0\ndone 7\n",
     "controls count for every later entry"},
    {"THRESHOLD", BYTES(1, 0, 39, 0, 0, 3, 1, 0, 0, 0, ZEROS, ZEROS, ZEROS, ZEROS, ENTER), USUAL,
     "1 6 0 0\n2 0 4 4\ndone 2\n", "the threshold 01000000H is above 15"},
    {"EXIT-BITS",
     BYTES(1, CONTROLS_WITH(0, M, 0), ZEROS, 0, 2, 0, 0, 0, 0, 0, 0, ZEROS, ZEROS, ASK(0x71), ENTER, OPEN,
           WRITE_AT(0, 0xB0, 4, 0, ZEROS)),
     USUAL, QUIET_3 "4 5 113 0\n5 4 45 113\ndone 5\n", "EOI-exit bit 71 is bit 49 of the second word"},
    {"K2-K3",
     BYTES(1, SET(M, 0), ASK(0x60), ENTER, OPEN, WRITE_AT(3, 0, 4, 0, VALUE(0, 4, 0, 0x71)), OPEN,
           WRITE_AT(0, 0xB0, 4, 0, ZEROS), READ_AT(0, 0x80, 4, 0)),
     USUAL, EXAMPLE_LINES "5 6 0 0\n6 5 113 0\n7 6 0 0\n8 1 0 0\ndone 8\n", "document 01's K2 and K3"},
    {"K5", BYTES(1, SET(M, 0), ASK(0x60), ENTER, OPEN, WRITE_AT(3, 0, 4, 0, VALUE(0, 4, 0x20, 0x71))), USUAL,
     EXAMPLE_LINES "5 4 56 768\ndone 5\n", "document 01's K5"},
    {"K10",
     BYTES(1, SET(R, 0), ENTER, READ_AT(0, 0x83, 1, 0), SET(M, 0), READ_AT(0, 0x83, 1, 2), ENTER,
           READ_AT(0, 0x83, 1, 0)),
     USUAL, "1 6 0 0\n2 6 0 0\n3 1 0 0\n4 6 0 0\n5 4 44 131\n6 6 0 0\n7 4 44 131\ndone 7\n",
     "document 01's K10, and the already-virtualised flag"},
    {"FETCH", BYTES(1, SET(R, 0), ENTER, READ_AT(0, 0x80, 4, 1)), USUAL,
     "1 6 0 0\n2 6 0 0\n3 4 44 8320\ndone 3\n", "a fetch exits with 2000H in its qualification"},
    {"MSR",
     BYTES(1, SET(X2_R, 0), ENTER, WRITE_MSR(8, 8, VALUE(0, 0, 0, 0x25)), READ_MSR(8, 8),
           WRITE_MSR(8, 8, VALUE(0, 0, 1, 0)), WRITE_MSR(8, 0x0B, VALUE(0, 0, 0, 1)), READ_MSR(9, 0),
           WRITE_MSR(8, 0x3F, VALUE(0, 0, 0, 0x31)), OPEN, FROM(1), WRITE_MSR(8, 0x3F, VALUE(0, 0, 0, 0x0F))),
     USUAL,
     QUIET_3 "4 1 37 0\n5 3 0 0\n6 3 0 0\n7 2 0 0\n8 6 0 0\n9 5 49 0\n10 1 2 0\n11 4 56 1008\ndone 11\n",
     "MSR accesses"},
    {"LARGE",
     BYTES(1, SET(R, 0), ENTER, WRITE_AT(3, 0x20, 4, 0, VALUE(0xFF, 0xFF, 0xFF, 0xFF)), ENTER,
           READ_AT(3, 0x20, 4, 0), SET(X2_R, 0), TO(15, 0), READ_AT(3, 0x22, 2, 0)),
     USUAL,
     "1 6 0 0\n2 6 0 0\n3 4 56 800\n4 6 0 0\n5 1 4294967295 0\n6 6 0 0\n7 6 0 0\n8 1 65535 0\ndone 8\n",
     "the largest number that can be read"},
    {"BLOCKED",
     BYTES(1, SET(V, 0), ASK(0x60), ENTER, BOUNDARY_OF(3, 0), BOUNDARY_OF(5, 0), BOUNDARY_OF(0, 0),
           BOUNDARY_OF(1, 2), BOUNDARY_OF(1, 3), BOUNDARY_OF(1, 1)),
     USUAL, QUIET_3 "4 6 0 0\n5 6 0 0\n6 6 0 0\n7 6 0 0\n8 6 0 0\n9 5 96 0\ndone 9\n",
     "each blocking, IF off, shutdown and wait-for-SIPI hold a delivery back, HLT doesn't"},
    {"REGISTER", BYTES(1, SET(0x81, 0), ENTER, TO(2, 15), ENTER, TO(15, 0)), USUAL,
     "1 6 0 0\n2 6 0 0\n3 4 28 3848\n4 6 0 0\n5 4 28 8\ndone 5\n", "a value comes before its register"},
};

static struct attempt attempt;
static struct replayed both;

/* Whether a program writes exactly this text, or nothing where the buffer is too short for it. */
static bool leaves(const struct result *result, const char *text, bool fits)
{
    if (!fits)
        return result->answer == GG_REPLAY_TOO_SHORT && result->written == 0;
    return result->answer == GG_REPLAY_WRITTEN && result->written == strlen(text) &&
           memcmp(result_text(result), text, strlen(text)) == 0;
}

/* Runs the attempt with a buffer of so many bytes; false where a program does otherwise. */
static bool holds(size_t out_len, bool null_out, const char *text)
{
    bool fits = out_len >= strlen(text);
    replayed_run(&both, &attempt, out_len, null_out);
    if (replayed_same(&both) && leaves(&both.model, text, fits) && leaves(&both.second, text, fits))
        return true;
    printf("difference at a text that is due, of %zu bytes\n", strlen(text));
    list_call(&attempt, &both);
    list_difference(&attempt, &both);
    if (fits) {
        list_unlike(&attempt, text, "model", &both.model);
        list_unlike(&attempt, text, "second", &both.second);
    }
    return false;
}

static bool play(const struct named_trace *named)
{
    size_t length = strlen(named->text);
    trace_clear(&attempt.trace);
    if (named->length > 0)
        trace_append(&attempt.trace, named->bytes, named->length);
    attempt.limit = named->limit;
    return holds(attempt_ample(&attempt), false, named->text) && holds(OUT_ROOM, false, named->text) &&
           holds(length, false, named->text) && holds(length - 1, false, named->text) &&
           holds(0, true, named->text);
}

/* Traces of so many bytes, of the shortest records; so many of them have a line. */
static const struct sized_trace {
    const char *name;
    size_t size;
    uint32_t limit, lines;
    const char *words;
} sized[] = {
    {"SIZE-61440", TRACE_MOST, USUAL, USUAL, "the longest trace, and 10,000 of its records"},
    {"SIZE-61440-ALL", TRACE_MOST, UINT32_MAX, 20479, "every record of the longest trace"},
    {"SIZE-61439", TRACE_MOST - 1, 20478, 20478, "a byte less, and the limit is the number of records"},
    {"SIZE-61441", TRACE_MOST + 1, USUAL, 0, "a byte more is too long"},
    {"SIZE-65637", 65536 + 101, USUAL, 0, "16 bits don't hold the length"},
};

/* The first entry is quiet, and every later entry or request refused in guest mode. */
static const char *sized_text(const struct sized_trace *named)
{
    static char text[OUT_ROOM];
    char *to = text, *end = text + sizeof text;
    for (uint32_t line = 1; line <= named->lines; line++)
        to += snprintf(to, (size_t)(end - to), "%" PRIu32 " %s\n", line, line == 1 ? "6 0 0" : "0 3 0");
    if (named->size > TRACE_MOST)
        snprintf(to, (size_t)(end - to), "bad 0\n");
    else
        snprintf(to, (size_t)(end - to), "done %" PRIu32 "\n", named->lines);
    return text;
}

static bool play_sized(const struct sized_trace *named)
{
    static struct author author;
    author_start(&author, &attempt.trace, STYLE_DELIVERY, true);
    author_fill(&author, named->size);
    attempt.limit = named->limit;
    const char *text = sized_text(named);
    return holds(attempt_ample(&attempt), false, text) && holds(strlen(text), false, text) &&
           holds(strlen(text) - 1, false, text);
}

static unsigned tell(const char *name, const char *words, bool held)
{
    printf("%s %s: %s\n", held ? "ok" : "FAILED", name, words);
    return !held;
}

unsigned replay_named_run(void)
{
    unsigned failed = 0;
    for (size_t i = 0; i < sizeof traces / sizeof traces[0]; i++)
        failed += tell(traces[i].name, traces[i].words, play(&traces[i]));
    for (size_t i = 0; i < sizeof sized / sizeof sized[0]; i++)
        failed += tell(sized[i].name, sized[i].words, play_sized(&sized[i]));
    return failed;
}

/* A null trace, which has no version byte, and a null buffer, which is too short for any text. */
unsigned replay_null_run(void)
{
    static const uint8_t example[] = {EXAMPLE};
    unsigned calls = 0, failed = 0;
    for (unsigned which = 0; which < LIMITS; which++) {
        attempt.limit = attempt_limit(which, 4);
        trace_clear(&attempt.trace);
        failed += !holds(64, false, "bad 0\n");
        failed += !holds(6, false, "bad 0\n");
        failed += !holds(5, false, "bad 0\n");
        failed += !holds(0, true, "bad 0\n");
        trace_append(&attempt.trace, example, sizeof example);
        failed += !holds(0, true, "done 0\n");
        calls += 5;
    }
    printf("null: %u calls with null pointers, %u failed\n", calls, failed);
    return failed;
}
