/* Prints a trace as a listing, and where two texts differ. */
#include "listing.h"

#include "show.h"

#include <inttypes.h>
#include <stdio.h>
#include <string.h>

/* Records listed on either side of a difference; bytes shown of a record that can't be read, and of buffers. */
enum { AROUND = 3, UNREAD_BYTES = 16, MOST_BYTES = 8 };

const char *listing_kind(unsigned kind)
{
    return kind == SET_CONTROLS ? "controls" : kind < RECORD_KINDS ? show_kind(kind) : "unknown kind";
}

const char *listing_reading(enum reading reading)
{
    static const char *const words[READINGS] = {
        "a record",        "the end of the trace", "cut short in its length",     "cut short in its body",
        "its length is 0", "its kind is unknown",  "its length isn't its kind's", "an unused flag is set"};
    return words[reading];
}

static void list_bytes(const uint8_t *from, size_t count)
{
    for (size_t at = 0; at < count; at++)
        printf("%02X", from[at]);
}

static void list_controls(const uint8_t *body)
{
    printf("controls %04X, threshold %" PRIX32 ", EOI exits", big_half(body + 1), big_word(body + 3));
    for (unsigned word = 0; word < 4; word++)
        printf(" %" PRIX64, big_long(body + 7 + 8 * word));
}

/* A record's fields by name. */
static void list_fields(const uint8_t *body)
{
    unsigned kind = body[0];
    if (kind == SET_CONTROLS) {
        list_controls(body);
        return;
    }
    printf("%s", listing_kind(kind));
    if (kind == READ || kind == WRITE)
        printf(" at %03X, size %u, flags %02X", big_half(body + 1), body[3], body[4]);
    if (kind == WRITE)
        printf(", value %" PRIX64, big_long(body + 5));
    if (kind == TO_CR8)
        printf(", value %u, register %u", body[1], body[2]);
    if (kind == FROM_CR8)
        printf(", register %u", body[1]);
    if (kind == RDMSR || kind == WRMSR)
        printf(" %" PRIX32, big_word(body + 1));
    if (kind == WRMSR)
        printf(", value %" PRIX64, big_long(body + 5));
    if (kind == BOUNDARY)
        printf(", flags %02X, activity %u", body[1], body[2]);
    if (kind == REQUEST)
        printf(" %02X", body[1]);
}

/* One line: a record, the end, or a record that can't be read with the bytes it has. */
static void list_line(const struct reader *before, const struct reader *after, enum reading reading,
                      const uint8_t *body, char mark, uint32_t number)
{
    size_t left = before->length - before->place;
    printf("  %c %5" PRIu32 " at %5zu: ", mark, number, before->place);
    if (reading == READING_RECORD) {
        list_fields(body);
        printf(" (");
        list_bytes(before->trace + before->place, after->place - before->place);
        printf(")\n");
        return;
    }
    printf("%s", listing_reading(reading));
    if (reading != READING_END) {
        printf(" (");
        list_bytes(before->trace + before->place, left < UNREAD_BYTES ? left : UNREAD_BYTES);
        printf("%s)", left > UNREAD_BYTES ? ".." : "");
    }
    printf("\n");
}

void list_records(const struct trace *t, uint32_t from, uint32_t to, uint32_t marked)
{
    struct reader reader, before;
    const uint8_t *body = NULL;
    enum reading reading = READING_RECORD;
    if (!trace_walk(&reader, t)) {
        printf("    no record is read: ");
        printf(t->length == 0 ? "no version byte\n" : "version %u, %zu bytes\n", *trace_at(t), t->length);
        return;
    }
    for (uint32_t number = 1; number <= to && reading == READING_RECORD; number++) {
        before = reader;
        reading = trace_next(&reader, &body);
        if (number >= from)
            list_line(&before, &reader, reading, body, number == marked ? '>' : ' ', number);
    }
}

static void list_result(const char *who, const struct result *result)
{
    printf("  %-6s returns %" PRIu32 ", written %" PRIu64 "\n", who, result->answer, result->written);
}

void list_call(const struct attempt *a, const struct replayed *both)
{
    printf("  trace of %zu bytes, limit %" PRIu32 ", buffer of %zu bytes%s\n", a->trace.length, a->limit,
           both->model.out_len, both->null_out ? ", null" : "");
    list_result("model", &both->model);
    list_result("second", &both->second);
}

/* A text, of which a report names whose it is. */
struct named_text {
    const char *who;
    const uint8_t *text;
    size_t length;
};

static struct named_text text_of(const char *who, const struct result *result)
{
    return (struct named_text){who, result_text(result), result_length(result)};
}

/* The line of a text that starts at a place, without its end. */
static void list_text_line(const struct named_text *t, size_t at)
{
    size_t end = at;
    while (end < t->length && t->text[end] != '\n')
        end++;
    printf("    %-6s %.*s", t->who, (int)(end - at), (const char *)t->text + at);
    if (end == t->length)
        printf(at < end ? " without its end" : "has no such line");
    printf("\n");
}

/* The first line in which two texts differ, with the records around it; false where they are the same. */
static bool list_unequal_texts(const struct attempt *a, const struct named_text *one,
                               const struct named_text *other)
{
    size_t same = 0, start = 0;
    uint32_t line = 1;
    while (same < one->length && same < other->length && one->text[same] == other->text[same])
        if (one->text[same++] == '\n') {
            start = same;
            line++;
        }
    if (same == one->length && same == other->length)
        return false;
    printf("  the texts differ first in line %" PRIu32 ":\n", line);
    list_text_line(one, start);
    list_text_line(other, start);
    printf("  the trace around its record:\n");
    list_records(&a->trace, line > AROUND ? line - AROUND : 1, line + AROUND, line);
    return true;
}

/* The first bytes in and around the buffer that differ. */
static void list_unequal_bytes(const struct replayed *both)
{
    const uint8_t *model = both->model.bytes, *second = both->second.bytes;
    unsigned shown = 0;
    for (size_t at = 0; at < TRACE_GUARD + both->model.out_len + TRACE_TAIL && shown < MOST_BYTES; at++) {
        if (model[at] == second[at])
            continue;
        printf("  byte %ld of the buffer: %02X | %02X\n", (long)at - TRACE_GUARD, model[at], second[at]);
        shown++;
    }
}

void list_difference(const struct attempt *a, const struct replayed *both)
{
    struct named_text model = text_of("model", &both->model), second = text_of("second", &both->second);
    if (both->trace_changed)
        printf("  the trace or a byte around it has been changed\n");
    if (!list_unequal_texts(a, &model, &second))
        list_unequal_bytes(both);
}

void list_unlike(const struct attempt *a, const char *due, const char *who, const struct result *result)
{
    struct named_text wanted = {"due", (const uint8_t *)due, strlen(due)}, found = text_of(who, result);
    list_unequal_texts(a, &wanted, &found);
}

void list_text(const char *who, const struct result *result)
{
    printf("%s:\n%.*s", who, (int)result_length(result), (const char *)result_text(result));
}
