/*
 * Records two sessions beside the model and writes each into a folder, as a trace, as a listing of its bytes and
 * as the text that its replay prints: record FOLDER
 * In the first a driver's wake-up call to the tuner is a self-IPI, whose handler arms black level clamp. In the
 * second the driver is made from an outdated register map and sets bit 13 in the same call: the guest leaves to
 * the hypervisor, which drops it. The two differ first in record 5.
 */
#include "garlandgrid.h"

#include <inttypes.h>
#include <stdio.h>
#include <stdlib.h>
#include <string.h>

/* "M" of the bench cases: controls 0, 1, 4 and 5. */
static const uint32_t controls_m = GG_USE_TPR_SHADOW | GG_VIRTUALIZE_APIC_ACCESSES |
                                   GG_VIRTUAL_INTERRUPT_DELIVERY | GG_EXTERNAL_INTERRUPT_EXITING;

/* Bytes in a row of the listing. */
enum { ROW = 16 };

/* A session under way: its processor, its trace, and the lines that its replay has to print. */
struct session {
    uint8_t page[GG_PAGE_LENGTH];
    struct gg_record record;
    uint8_t bytes[256];
    struct gg_trace trace;
    char text[1024];
    size_t text_length;
    unsigned count;
    FILE *listing;
};

static void stop(const char *words)
{
    fprintf(stderr, "record: %s\n", words);
    exit(1);
}

/* Opens FOLDER/NAME.ENDING for writing. */
static FILE *create(const char *folder, const char *name, const char *ending)
{
    char path[4096];
    int length = snprintf(path, sizeof path, "%s/%s.%s", folder, name, ending);
    FILE *file = length > 0 && (size_t)length < sizeof path ? fopen(path, "wb") : NULL;
    if (!file)
        stop("a file can't be written");
    return file;
}

/* Writes FOLDER/NAME.ENDING whole. */
static void save(const char *folder, const char *name, const char *ending, const void *bytes, size_t length)
{
    FILE *file = create(folder, name, ending);
    if (fwrite(bytes, 1, length, file) != length || fclose(file) != 0)
        stop("a file can't be written");
}

/* Up to sixteen bytes of the trace from a place on, in hex; none where the trace ends there. */
static void row_of(const struct gg_trace *trace, size_t from, char row[3 * ROW])
{
    row[0] = 0;
    for (size_t i = 0; i < ROW && from + i < trace->length; i++)
        sprintf(i ? row + 3 * i - 1 : row, "%s%02X", i ? " " : "", trace->bytes[from + i]);
}

/* The bytes that the trace has gained, in rows; beside the first the line that they print, and words. */
static void list(struct session *session, size_t from, const char *line, const char *words)
{
    char row[3 * ROW];
    row_of(&session->trace, from, row);
    fprintf(session->listing, "%6zu  %-47s  %-10s  %s\n", from, row, line, words);
    for (from += ROW; from < session->trace.length; from += ROW) {
        row_of(&session->trace, from, row);
        fprintf(session->listing, "        %s\n", row);
    }
}

/* Adds a line to the text and lists it with what it stands for. */
static void say(struct session *session, size_t from, const char *line, const char *words)
{
    size_t length = strlen(line);
    if (length + 1 > sizeof session->text - session->text_length)
        stop("the text has no room");
    memcpy(session->text + session->text_length, line, length);
    session->text_length += length;
    session->text[session->text_length++] = '\n';
    list(session, from, line, words);
}

/* The line of the next record, which begins at a place in the trace. */
static void answered(struct session *session, size_t from, const char *words, struct gg_answer answer)
{
    char line[64];
    snprintf(line, sizeof line, "%u %" PRIu32 " %" PRIu64 " %" PRIu64, ++session->count, answer.number,
             answer.first, answer.second);
    say(session, from, line, words);
}

/* The controls of later entries are no event: the model isn't asked, and their line says quiet. */
static void set_controls(struct session *session, const char *words, uint32_t controls)
{
    const struct gg_answer quiet = {GG_QUIET, 0, 0};
    size_t from = session->trace.length;
    if (!gg_trace_controls(&session->trace, controls, 0, NULL))
        stop("controls can't be recorded");
    answered(session, from, words, quiet);
}

/* Records an event and sends it to the model. */
static void send_event(struct session *session, const char *words, struct gg_event event)
{
    size_t from = session->trace.length;
    if (!gg_trace_event(&session->trace, &event))
        stop("an event can't be recorded");
    answered(session, from, words, gg_run(session->page, sizeof session->page, &session->record, &event));
}

static void enter(struct session *session, const char *words)
{
    send_event(session, words, gg_entry(controls_m, 0, NULL));
}

static void open_boundary(struct session *session, const char *words)
{
    send_event(session, words, gg_boundary(GG_IF, GG_ACTIVE));
}

static void write_register(struct session *session, const char *words, uint32_t offset, uint32_t value)
{
    send_event(session, words, gg_memory_write(offset, 4, value, 0));
}

/* K1 under M: an interrupt of the guest is in service. */
static void serve(struct session *session)
{
    set_controls(session, "controls M: 0, 1, 4 and 5 on; threshold 0, no EOI-exit bit", controls_m);
    send_event(session, "request of 60H", gg_request(0x60));
    enter(session, "entry");
    open_boundary(session, "boundary, IF on: 60H is delivered");
}

static void retire(struct session *session)
{
    write_register(session, "write 0 to VEOI, size 4: the end of 60H", GG_VEOI, 0);
    open_boundary(session, "boundary, IF on: nothing waits");
}

static void wake_up_call(struct session *session)
{
    serve(session);
    write_register(session, "write 00040071H to VICR_LO, size 4: the wake-up call, a self-IPI of 71H",
                   GG_VICR_LO, 0x00040071);
    open_boundary(session, "boundary, IF on: 71H is delivered, its handler arms black level clamp");
    write_register(session, "write 0 to VEOI, size 4: the end of 71H", GG_VEOI, 0);
    open_boundary(session, "boundary, IF on: nothing waits");
    retire(session);
}

static void bit_13(struct session *session)
{
    serve(session);
    write_register(session, "write 00042071H to VICR_LO, size 4: the call with bit 13 set; exit 56 at 300H",
                   GG_VICR_LO, 0x00042071);
    enter(session, "entry, with the same controls: the hypervisor has dropped the call");
    open_boundary(session, "boundary, IF on: no 71H, so black level clamp is never armed");
    retire(session);
}

/* The replay has to print what the model answered while the session was recorded. */
static int replay_agrees(const struct session *session)
{
    static uint8_t text[GG_REPLAY_ROOM(GG_REPLAY_LIMIT)];
    uint64_t length = 0;
    return gg_replay(session->trace.bytes, session->trace.length, GG_REPLAY_LIMIT, text, sizeof text, &length) ==
               GG_REPLAY_WRITTEN &&
           length == session->text_length && memcmp(text, session->text, session->text_length) == 0;
}

static void finish(struct session *session)
{
    char line[64];
    snprintf(line, sizeof line, "done %u", session->count);
    say(session, session->trace.length, line, "the trace ends");
    if (fclose(session->listing) != 0)
        stop("a file can't be written");
    if (!replay_agrees(session))
        stop("the replay prints another text");
}

/* Runs and records one session on a fresh processor. */
static void record(const char *folder, const char *name, void (*run)(struct session *))
{
    static struct session session;
    memset(&session, 0, sizeof session);
    session.listing = create(folder, name, "txt");
    if (gg_fresh((uint8_t *)&session.record, sizeof session.record) != GG_QUIET)
        stop("no fresh record");
    fprintf(session.listing, "offset  %-47s  %-10s  what it is\n", "bytes, in hex", "prints");
    session.trace = gg_trace_start(session.bytes, sizeof session.bytes);
    list(&session, 0, "", "version 1");
    run(&session);
    finish(&session);
    save(folder, name, "trace", session.trace.bytes, session.trace.length);
    save(folder, name, "expected", session.text, session.text_length);
}

int main(int argc, char **argv)
{
    if (argc != 2)
        stop("it takes one argument, the folder to write to");
    record(argv[1], "wake-up-call", wake_up_call);
    record(argv[1], "bit-13", bit_13);
    return 0;
}
