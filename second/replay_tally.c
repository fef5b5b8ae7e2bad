/* Counts records by kind and answer, the ways to be unreadable, the ends of texts and the buffers. */
#include "replay_tally.h"

#include "listing.h"
#include "show.h"

#include <inttypes.h>
#include <stdio.h>

#define COUNT(array) (sizeof(array) / sizeof((array)[0]))
#define BIT(number) (1u << (number))

static const unsigned exit_reasons[] = {GG_EXIT_INTERRUPT_WINDOW,    GG_EXIT_CONTROL_REGISTER,
                                        GG_EXIT_TPR_BELOW_THRESHOLD, GG_EXIT_APIC_ACCESS,
                                        GG_EXIT_VIRTUALIZED_EOI,     GG_EXIT_APIC_WRITE};

/* Check 5 needs a control that no trace holds. */
static const unsigned entry_checks[] = {GG_CHECK_TPR_SHADOW_OFF, GG_CHECK_BOTH_APIC_MODES,
                                        GG_CHECK_EXTERNAL_INTERRUPTS, GG_CHECK_TPR_THRESHOLD,
                                        GG_CHECK_TPR_BELOW_THRESHOLD};

/* The answers that a kind's line can have, and the refusals; an entry's fields are always in bounds. */
static const struct {
    unsigned answers, refusals;
} possible[RECORD_KINDS] = {
    [SET_CONTROLS] = {BIT(QUIET), 0},
    [ENTRY] = {BIT(REFUSED) | BIT(EXITED) | BIT(QUIET), BIT(3) | BIT(4)},
    [READ] = {BIT(REFUSED) | BIT(REDIRECTED) | BIT(PASSTHROUGH) | BIT(EXITED), BIT(2) | BIT(3)},
    [WRITE] = {BIT(REFUSED) | BIT(PASSTHROUGH) | BIT(EXITED) | BIT(QUIET), BIT(2) | BIT(3)},
    [TO_CR8] = {BIT(REFUSED) | BIT(PASSTHROUGH) | BIT(EXITED) | BIT(QUIET), BIT(2) | BIT(3)},
    [FROM_CR8] = {BIT(REFUSED) | BIT(REDIRECTED) | BIT(PASSTHROUGH) | BIT(EXITED), BIT(2) | BIT(3)},
    [RDMSR] = {BIT(REFUSED) | BIT(REDIRECTED) | BIT(PASSTHROUGH), BIT(3)},
    [WRMSR] = {BIT(REFUSED) | BIT(PASSTHROUGH) | BIT(FAULTED) | BIT(EXITED) | BIT(QUIET), BIT(3)},
    [BOUNDARY] = {BIT(REFUSED) | BIT(EXITED) | BIT(DELIVERED) | BIT(QUIET), BIT(2) | BIT(3)},
    [REQUEST] = {BIT(REFUSED) | BIT(QUIET), BIT(3)},
};

static const char *const no_record_words[NO_RECORDS] = {"no version byte", "another version", "too long"};
static const char *const done_words[DONES] = {"at the trace's end", "at the limit, before the end",
                                              "at the limit, before a record",
                                              "at the limit, before one that can't be read"};

/* Where a text is being read, and the mode that its answers have led to. */
struct place {
    const uint8_t *at, *end;
    unsigned mode;
    bool has_controls;
};

/* Reads a number and passes what ends it. */
static uint64_t read_number(struct place *p)
{
    uint64_t number = 0;
    for (; p->at < p->end && *p->at >= '0' && *p->at <= '9'; p->at++)
        number = 10 * number + (*p->at - '0');
    p->at += p->at < p->end;
    return number;
}

static void add_line(struct replay_tally *tally, unsigned kind, uint64_t answer, uint64_t first,
                     uint64_t second)
{
    tally->answers[kind][answer % LINE_ANSWERS]++;
    if (answer == REFUSED)
        tally->refusals[kind][first % LINE_REFUSALS]++;
    if (answer == REFUSED && first == 4)
        tally->checks[second % LINE_CHECKS]++;
    if (answer == EXITED)
        tally->reasons[first % LINE_REASONS]++;
    if (first > tally->largest)
        tally->largest = first;
}

/* Follows the mode: an entry that is quiet leads into the guest, every exit out of it. */
static void add_mode(struct replay_tally *tally, struct place *p, unsigned kind, uint64_t answer)
{
    if (kind == SET_CONTROLS) {
        tally->controls_in[p->mode]++;
        p->has_controls = true;
    }
    if (kind == ENTRY && !p->has_controls)
        tally->bare_entries++;
    if (kind == ENTRY && answer == QUIET)
        p->mode = 1;
    if (answer == EXITED)
        p->mode = 0;
}

static void add_record(struct replay_tally *tally, struct place *p, unsigned kind)
{
    read_number(p);
    uint64_t answer = read_number(p), first = read_number(p), second = read_number(p);
    add_line(tally, kind, answer, first, second);
    add_mode(tally, p, kind, answer);
}

static void add_bad(struct replay_tally *tally, enum reading reading, const struct reader *reader,
                    const uint8_t *body)
{
    tally->bad[reading]++;
    if (reading == READING_FLAG)
        tally->unused[body[0]]++;
    if (reading == READING_LENGTH && big_half(reader->trace + reader->place) < forms[body[0]].length)
        tally->shorter[body[0]]++;
    if (reading == READING_LENGTH && big_half(reader->trace + reader->place) > forms[body[0]].length)
        tally->longer[body[0]]++;
}

/* How a text is done at the limit, by what is read next. */
static unsigned done_at_limit(enum reading next)
{
    if (next == READING_RECORD)
        return DONE_BEFORE_RECORD;
    return next == READING_END ? DONE_BEFORE_END : DONE_BEFORE_BAD;
}

static void add_records(struct replay_tally *tally, const struct attempt *a, struct reader *reader,
                        struct place *p)
{
    const uint8_t *body;
    uint32_t count = 0;
    enum reading reading = trace_next(reader, &body);
    for (; reading == READING_RECORD && count < a->limit; reading = trace_next(reader, &body)) {
        add_record(tally, p, body[0]);
        count++;
    }
    tally->records += count;
    if (count > tally->most_records)
        tally->most_records = count;
    if (count < a->limit && reading != READING_END)
        add_bad(tally, reading, reader, body);
    else if (count < a->limit)
        tally->done[DONE_AT_END]++;
    else
        tally->done[done_at_limit(reading)]++;
}

void replay_tally_add(struct replay_tally *tally, const struct attempt *a, const struct result *result)
{
    struct reader reader;
    const uint8_t *text = result_text(result);
    struct place place = {text, text + result_length(result), 0, false};
    tally->traces++;
    if (trace_walk(&reader, &a->trace))
        add_records(tally, a, &reader, &place);
    else if (a->trace.length == 0)
        tally->no_records[NO_VERSION]++;
    else
        tally->no_records[*trace_at(&a->trace) == TRACE_VERSION ? TOO_LONG : OTHER_VERSION]++;
}

void replay_tally_buffer(struct replay_tally *tally, enum buffer buffer)
{
    tally->buffers[buffer]++;
}

static void print_row(const char *name, uint64_t count)
{
    printf("  %-44s %12" PRIu64 "\n", name, count);
}

/* A table by kind: the numbers that its mask allows, and - for the others. */
static void print_cells(const char *title, const struct replay_tally *tally)
{
    printf("%s (- is impossible):\n  %-14s", title, "");
    for (unsigned answer = 0; answer < LINE_ANSWERS; answer++)
        printf("%12s", show_answer(answer));
    for (unsigned refusal = 2; refusal < LINE_REFUSALS; refusal++)
        printf("%10s %u", "refusal", refusal);
    for (unsigned kind = 0; kind < RECORD_KINDS; kind++) {
        printf("\n  %-14s", listing_kind(kind));
        for (unsigned answer = 0; answer < LINE_ANSWERS; answer++)
            if (possible[kind].answers & BIT(answer))
                printf("%12" PRIu64, tally->answers[kind][answer]);
            else
                printf("%12s", "-");
        for (unsigned refusal = 2; refusal < LINE_REFUSALS; refusal++)
            if (possible[kind].refusals & BIT(refusal))
                printf("%12" PRIu64, tally->refusals[kind][refusal]);
            else
                printf("%12s", "-");
    }
    printf("\n");
}

static void print_bad(const struct replay_tally *tally)
{
    printf("can't be read:\n");
    for (int reading = READING_CUT_LENGTH; reading < READINGS; reading++)
        print_row(listing_reading((enum reading)reading), tally->bad[reading]);
    printf("of these, with an unused flag, shorter, longer than its kind's:\n");
    for (unsigned kind = 0; kind < RECORD_KINDS; kind++)
        printf("  %-20s %12" PRIu64 "%12" PRIu64 "%12" PRIu64 "\n", listing_kind(kind), tally->unused[kind],
               tally->shorter[kind], tally->longer[kind]);
    printf("no record is read:\n");
    for (unsigned why = 0; why < NO_RECORDS; why++)
        print_row(no_record_words[why], tally->no_records[why]);
}

void replay_tally_print(const struct replay_tally *tally)
{
    print_cells("records by kind and answer", tally);
    printf("exit reasons:\n");
    for (size_t i = 0; i < COUNT(exit_reasons); i++)
        print_row(show_reason(exit_reasons[i]), tally->reasons[exit_reasons[i]]);
    printf("entry checks:\n");
    for (size_t i = 0; i < COUNT(entry_checks); i++)
        print_row(show_check(entry_checks[i]), tally->checks[entry_checks[i]]);
    printf("controls and entries:\n");
    print_row("controls in root mode", tally->controls_in[0]);
    print_row("controls in guest mode", tally->controls_in[1]);
    print_row("entries before the first controls", tally->bare_entries);
    print_bad(tally);
    printf("done:\n");
    for (unsigned how = 0; how < DONES; how++)
        print_row(done_words[how], tally->done[how]);
    printf("second buffers:\n");
    for (int buffer = 0; buffer < BUFFERS; buffer++)
        print_row(buffer_words((enum buffer)buffer), tally->buffers[buffer]);
    printf("most records in a text: %" PRIu64 ", largest number: %" PRIu64 "\n", tally->most_records,
           tally->largest);
}

static unsigned missing(uint64_t count, const char *table, const char *cell)
{
    if (count > 0)
        return 0;
    printf("never exercised: %s, %s\n", table, cell);
    return 1;
}

static unsigned missing_number(uint64_t count, const char *table, unsigned number)
{
    char cell[16];
    snprintf(cell, sizeof cell, "refusal %u", number);
    return missing(count, table, cell);
}

static unsigned missing_cells(const struct replay_tally *tally)
{
    unsigned found = 0;
    for (unsigned kind = 0; kind < RECORD_KINDS; kind++) {
        for (unsigned answer = 0; answer < LINE_ANSWERS; answer++)
            if (possible[kind].answers & BIT(answer))
                found += missing(tally->answers[kind][answer], listing_kind(kind), show_answer(answer));
        for (unsigned refusal = 2; refusal < LINE_REFUSALS; refusal++)
            if (possible[kind].refusals & BIT(refusal))
                found += missing_number(tally->refusals[kind][refusal], listing_kind(kind), refusal);
    }
    for (size_t i = 0; i < COUNT(exit_reasons); i++)
        found += missing(tally->reasons[exit_reasons[i]], "exit", show_reason(exit_reasons[i]));
    for (size_t i = 0; i < COUNT(entry_checks); i++)
        found += missing(tally->checks[entry_checks[i]], "entry check", show_check(entry_checks[i]));
    found += missing(tally->controls_in[0], "controls", "in root mode");
    found += missing(tally->controls_in[1], "controls", "in guest mode");
    return found + missing(tally->bare_entries, "entry", "before the first controls");
}

/* An entry that is shorter has length 0, which counts by itself. */
static unsigned missing_bad(const struct replay_tally *tally)
{
    unsigned found = 0;
    for (int reading = READING_CUT_LENGTH; reading < READINGS; reading++)
        found += missing(tally->bad[reading], "unreadable", listing_reading((enum reading)reading));
    for (unsigned kind = 0; kind < RECORD_KINDS; kind++) {
        found += forms[kind].unused ? missing(tally->unused[kind], listing_kind(kind), "unused flag") : 0;
        found += kind != ENTRY ? missing(tally->shorter[kind], listing_kind(kind), "shorter") : 0;
        found += missing(tally->longer[kind], listing_kind(kind), "longer");
    }
    for (unsigned why = 0; why < NO_RECORDS; why++)
        found += missing(tally->no_records[why], "no record", no_record_words[why]);
    return found;
}

unsigned replay_tally_missing(const struct replay_tally *tally)
{
    unsigned found = missing_cells(tally) + missing_bad(tally);
    for (unsigned how = 0; how < DONES; how++)
        found += missing(tally->done[how], "done", done_words[how]);
    for (int buffer = 0; buffer < BUFFERS; buffer++)
        found += missing(tally->buffers[buffer], "buffer", buffer_words((enum buffer)buffer));
    found += missing(tally->most_records > GG_REPLAY_LIMIT, "text", "more than 10,000 records");
    return found + missing(tally->largest > INT32_MAX, "number", "above 2,147,483,647");
}
