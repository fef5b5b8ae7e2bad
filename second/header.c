/* Holds the header to C11 and C++11, compiled once as each: every function is used, nothing is linked. */
#include "garlandgrid.h"

#if GG_VERSION_MAJOR != 2 || GG_VERSION_MINOR != 2
#error "the checks of this folder are those of version 2.2"
#endif

/* The numbers of posted interrupts are those of document 02. */
GG_STATIC_ASSERT(GG_PROCESS_POSTED_INTERRUPTS == 0x200, "process posted interrupts is bit 9");
GG_STATIC_ASSERT(GG_ACKNOWLEDGE_INTERRUPT_ON_EXIT == 0x400, "acknowledge interrupt on exit is bit 10");
GG_STATIC_ASSERT(GG_ALL_CONTROLS == 0x7FF, "the controls are bits 0 to 10");
GG_STATIC_ASSERT(GG_DESCRIPTOR_LENGTH == 64, "the descriptor is 64 bytes long");
GG_STATIC_ASSERT(GG_REFUSED_DESCRIPTOR_LENGTH == 5, "another length is refusal 5");
GG_STATIC_ASSERT(GG_CHECK_POSTED_INTERRUPTS == 5, "posting has check 5");
GG_STATIC_ASSERT(GG_EXIT_EXTERNAL_INTERRUPT == 1, "an external interrupt is exit 1");
GG_STATIC_ASSERT(sizeof((struct gg_record *)0)->notification_vector == 2, "a notification vector has 16 bits");

/* So are those of a replay. */
GG_STATIC_ASSERT(GG_TRACE_VERSION == 1, "a trace has version 1");
GG_STATIC_ASSERT(GG_TRACE_LENGTH == 61440, "a trace has at most 61,440 bytes");
GG_STATIC_ASSERT(GG_TRACE_CONTROLS == 0, "controls are kind 0");
GG_STATIC_ASSERT(GG_TRACE_CONTROLS_LENGTH == 39, "with 39 bytes");
GG_STATIC_ASSERT(GG_TRACE_ALL_CONTROLS == 0x1FF, "of bits 0 to 8");
GG_STATIC_ASSERT(GG_REPLAY_LIMIT == 10000, "the program stops after 10,000 records");

/* A buffer's length is a size_t, whatever the limit's type is. */
GG_STATIC_ASSERT(GG_REPLAY_ROOM(GG_REPLAY_LIMIT) == 500011, "room for 10,000 records");
GG_STATIC_ASSERT(GG_REPLAY_ROOM(UINT32_MAX) == UINT64_C(214748364761), "room for the highest limit");
GG_STATIC_ASSERT(sizeof GG_REPLAY_ROOM(1) == sizeof(size_t), "room in the type of a length");

struct gg_answer header(uint8_t *page, struct gg_record *record, uint32_t choice);
struct gg_answer posting(uint8_t *page, struct gg_record *record, uint8_t *descriptor);
int recording(uint8_t *buffer, size_t buffer_len, const struct gg_event *event);
uint64_t replaying(const struct gg_trace *trace, uint8_t *text, size_t text_len);

struct gg_answer header(uint8_t *page, struct gg_record *record, uint32_t choice)
{
    const uint64_t exits[4] = {1, 2, 3, 4};
    const struct gg_event events[] = {
        gg_entry(GG_USE_TPR_SHADOW | GG_CR8_STORE_EXITING, 15, exits),
        gg_entry(GG_ALL_CONTROLS, 0, NULL),
        gg_entry_notified(GG_ALL_CONTROLS, 0, exits, 0xF2),
        gg_request(255),
        gg_memory_read(GG_VTPR, 4, GG_INSTRUCTION_FETCH),
        gg_memory_write(GG_VICR_LO, 4, 0x40071, GG_ALREADY_VIRTUALISED),
        gg_to_cr8(5, 1),
        gg_from_cr8(2),
        gg_rdmsr(0x808),
        gg_wrmsr(0x83F, 0x71),
        gg_boundary(GG_IF, GG_HLT),
    };
    if (gg_word(page, GG_VPPR) == 0 && gg_vector_is_set(page, GG_VISR, 0x60))
        gg_fresh((uint8_t *)record, sizeof *record);
    struct gg_answer request = gg_run_highest(page, GG_PAGE_LENGTH, GG_VIRR);
    if (request.number == GG_HIGHEST_REFUSED || (request.number == GG_HIGHEST_VECTOR && request.first == 0))
        return request;
    if (gg_highest(page, GG_PAGE_LENGTH, GG_VISR, &request.first, &request.second) == GG_HIGHEST_NONE)
        record->svi = 0;
    if (record->mode == GG_GUEST && !gg_boundary_matters(record, GG_IF, GG_ACTIVE))
        return gg_run_leave(record);
    return gg_run(page, GG_PAGE_LENGTH, record, &events[choice % (sizeof events / sizeof events[0])]);
}

struct gg_answer posting(uint8_t *page, struct gg_record *record, uint8_t *descriptor)
{
    struct gg_answer answer = gg_run_external_interrupt(page, GG_PAGE_LENGTH, record, descriptor,
                                                        GG_DESCRIPTOR_LENGTH, record->notification_vector);
    if (answer.number == GG_REFUSED && answer.first == GG_REFUSED_DESCRIPTOR_LENGTH)
        return answer;
    if (answer.number == GG_VM_EXIT && answer.first == GG_EXIT_EXTERNAL_INTERRUPT)
        return answer;
    if (gg_post(descriptor, 0x71))
        answer.number =
            gg_external_interrupt(page, GG_PAGE_LENGTH, (uint8_t *)record, sizeof *record, descriptor,
                                  GG_DESCRIPTOR_LENGTH, 0xF2, &answer.first, &answer.second);
    return answer;
}

/* A record of every kind, and one by its body. */
int recording(uint8_t *buffer, size_t buffer_len, const struct gg_event *event)
{
    const uint64_t exits[4] = {1, 2, 3, 4};
    const uint8_t unknown[] = {10};
    struct gg_trace trace = gg_trace_start(buffer, buffer_len);
    int recorded = gg_trace_controls(&trace, GG_TRACE_ALL_CONTROLS, 15, exits) +
                   gg_trace_controls(&trace, 0, 0, NULL) + gg_trace_entry(&trace) +
                   gg_trace_memory_read(&trace, GG_VTPR, 4, GG_INSTRUCTION_FETCH) +
                   gg_trace_memory_write(&trace, GG_VICR_LO, 4, 0x40071, GG_ALREADY_VIRTUALISED) +
                   gg_trace_to_cr8(&trace, 5, 1) + gg_trace_from_cr8(&trace, 2) +
                   gg_trace_rdmsr(&trace, 0x808) + gg_trace_wrmsr(&trace, 0x83F, 0x71) +
                   gg_trace_boundary(&trace, GG_IF, GG_HLT) + gg_trace_request(&trace, 255) +
                   gg_trace_event(&trace, event);
    if (gg_trace_has_room(&trace, 3))
        recorded += gg_trace_body(&trace, unknown, sizeof unknown);
    return recorded;
}

uint64_t replaying(const struct gg_trace *trace, uint8_t *text, size_t text_len)
{
    uint64_t written = 0;
    uint32_t limit = text_len < GG_REPLAY_ROOM(GG_REPLAY_LIMIT) ? 1 : GG_REPLAY_LIMIT;
    if (gg_replay(trace->bytes, trace->length, limit, text, text_len, &written) == GG_REPLAY_TOO_SHORT)
        return gg_replay(NULL, 0, 0, text, text_len, &written) == GG_REPLAY_WRITTEN ? written : 0;
    return written;
}
