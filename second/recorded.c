/* Holds the header's recorder to the format, and the library's replay to the library's steps. */
#include "recorded.h"

#include "author.h"
#include "generate.h"
#include "listing.h"

#include <inttypes.h>
#include <stdio.h>
#include <string.h>

/* One session in a hundred is so long that it has no room in the longest trace. */
enum { FAMILY = 1002, SESSIONS = 1000, EVENTS = 80, MANY_EVENTS = 20000, FILL_BYTE = 0xA5 };

/* A processor, the header's recording of what it does, the same trace made here, and the answers as text. */
static struct {
    struct gg_record record;
    uint8_t page[GG_PAGE_LENGTH];
    struct gg_trace recording;
    uint8_t buffer[TRACE_ROOM];
    struct attempt due;
    struct gg_event controls;
    bool has_controls;
    uint32_t lines;
    char text[OUT_ROOM];
    size_t length;
} s;

static void start(struct random *r, bool many)
{
    uint32_t shorter = random_below(r, 1200);
    size_t room = many || random_one_in(r, 2) ? sizeof s.buffer : shorter;
    memset(&s, 0, sizeof s);
    memset(s.buffer, FILL_BYTE, sizeof s.buffer);
    s.recording = gg_trace_start(s.buffer, room);
    trace_clear(&s.due.trace);
    if (room > 0)
        trace_start(&s.due.trace);
    s.due.limit = UINT32_MAX;
}

/* An event for the mode, its controls mostly such as a trace can hold. */
static struct gg_event choose(struct random *r)
{
    uint32_t guest = GG_MEMORY_READ + random_below(r, GG_BOUNDARY - GG_MEMORY_READ + 1);
    uint32_t root = random_one_in(r, 3) ? GG_REQUEST : GG_ENTRY;
    bool in_root = (s.record.mode == GG_ROOT) != random_one_in(r, 16);
    struct gg_event event = generate_event(r, in_root ? root : guest);
    if (event.kind == GG_ENTRY && !random_one_in(r, 4))
        event.value &= GG_TRACE_ALL_CONTROLS;
    if (event.kind == GG_ENTRY && s.has_controls && random_one_in(r, 2))
        event = s.controls;
    if (!in_root && guest != GG_RDMSR && guest != GG_WRMSR && random_one_in(r, 8))
        event = author_out_of_bounds(r, guest);
    return event;
}

/* Now and then something that a record may have no room for. */
static void spoil(struct random *r, struct gg_event *event)
{
    uint32_t bit = random_below(r, 64);
    switch (random_below(r, 64)) {
    case 0:
        event->kind = (uint8_t)(bit % 2 ? 0 : 10 + bit);
        break;
    case 1:
        event->number ^= UINT32_C(1) << bit % 32;
        break;
    case 2:
        event->value ^= UINT64_C(1) << bit;
        break;
    case 3:
        event->flags ^= (uint8_t)(1u << bit % 8);
        break;
    }
}

/* Whether a record can hold the event's fields, out of bounds or not. */
static bool can_hold(const struct gg_event *event)
{
    switch (event->kind) {
    case GG_ENTRY:
        return event->value < 1u << POSTING;
    case GG_MEMORY_READ:
    case GG_MEMORY_WRITE:
        return event->number <= 0xFFFF && event->flags <= (FETCH | ALREADY);
    case GG_TO_CR8:
        return event->value <= 0xFF;
    case GG_BOUNDARY:
        return event->flags <= 7;
    case GG_REQUEST:
        return event->number <= 0xFF;
    default:
        return event->kind >= GG_ENTRY && event->kind <= GG_REQUEST;
    }
}

/* Adds an event to the trace that is due: an entry after its controls, but where they are the last ones. */
static bool add(const struct gg_event *event)
{
    size_t before = s.due.trace.length;
    bool entry = event->kind == GG_ENTRY;
    bool same = s.has_controls && event->value == s.controls.value && event->number == s.controls.number &&
                memcmp(event->eoi_exit, s.controls.eoi_exit, sizeof event->eoi_exit) == 0;
    if (!can_hold(event))
        return false;
    if (entry && !same)
        trace_add_controls(&s.due.trace, event);
    trace_add_event(&s.due.trace, event);
    if (s.due.trace.length > s.recording.capacity) {
        trace_seal(&s.due.trace, before);
        return false;
    }
    if (entry && !same)
        s.length += (size_t)sprintf(s.text + s.length, "%" PRIu32 " 6 0 0\n", ++s.lines);
    s.controls = entry ? *event : s.controls;
    s.has_controls |= entry;
    return true;
}

/* Whether the recording has exactly the bytes that are due, and every byte after them is as it was. */
static bool recorded_as_due(void)
{
    size_t at = s.due.trace.length;
    if (s.recording.length != at || memcmp(s.buffer, trace_at(&s.due.trace), at) != 0)
        return false;
    while (at < sizeof s.buffer && s.buffer[at] == FILL_BYTE)
        at++;
    return at == sizeof s.buffer;
}

/* Records an event and carries out what is recorded; false where the recording isn't as it has to be. */
static bool step(const struct gg_event *event)
{
    bool due = add(event), done = gg_trace_event(&s.recording, event) == 1;
    if (!due || !done)
        return due == done && s.recording.length == s.due.trace.length;
    struct gg_answer answer = gg_run(s.page, sizeof s.page, &s.record, event);
    s.length += (size_t)sprintf(s.text + s.length, "%" PRIu32 " %" PRIu32 " %" PRIu64 " %" PRIu64 "\n",
                                ++s.lines, answer.number, answer.first, answer.second);
    return true;
}

/* Whether the replay of what was recorded prints the session's own answers. */
static bool replays_as_run(void)
{
    static struct replayed both;
    const char *last = s.recording.length > 0 ? "done" : "bad";
    sprintf(s.text + s.length, "%s %" PRIu32 "\n", last, s.lines);
    replayed_run(&both, &s.due, attempt_ample(&s.due), false);
    if (replayed_same(&both) && both.model.written == strlen(s.text) &&
        memcmp(result_text(&both.model), s.text, strlen(s.text)) == 0)
        return true;
    list_unlike(&s.due, s.text, "model", &both.model);
    list_unlike(&s.due, s.text, "second", &both.second);
    return false;
}

static bool run_session(struct random *r, bool many)
{
    bool held = true;
    start(r, many);
    for (unsigned left = many ? MANY_EVENTS : EVENTS; left > 0 && held; left--) {
        struct gg_event event = choose(r);
        spoil(r, &event);
        held = step(&event);
    }
    return held && recorded_as_due() && replays_as_run();
}

unsigned recorded_run(uint64_t seed)
{
    unsigned failed = 0;
    uint64_t records = 0;
    for (uint64_t session = 0; session < SESSIONS && !failed; session++) {
        struct random r = random_for(seed, FAMILY, session);
        if (!run_session(&r, session % 100 == 99)) {
            printf("difference at recorded session %" PRIu64 ": %zu bytes recorded, %zu due\n", session,
                   s.recording.length, s.due.trace.length);
            failed++;
        }
        records += s.lines;
    }
    printf("recorded: %d sessions, %" PRIu64 " records, %u failed (seed %" PRIu64 ")\n", SESSIONS, records,
           failed, seed);
    return failed;
}
