/*
 * Sessions: requests, entries, self-IPIs, deliveries, EOIs, exits and re-entries, with refusals among them.
 * Draws stand in statements of their own, since C leaves the order of arguments open.
 */
#include "author.h"

#include "edge.h"
#include "generate.h"

#include <string.h>

/* A session climbs for this many steps, then falls for as many. */
enum { PHASE = 24 };

/* The most bytes that one step adds: controls and an entry. */
enum { STEP_MOST = 2 + 39 + 2 + 1 };

void author_start(struct author *a, struct trace *trace, enum style style, bool fair)
{
    memset(a, 0, sizeof *a);
    a->trace = trace;
    a->style = style;
    a->fair = fair;
    a->entry = gg_entry(0, 0, NULL);
    trace_start(trace);
}

/* Records an event and carries it out; an entry brings the controls recorded last. */
static void play(struct author *a, const struct gg_event *event)
{
    uint64_t first, second;
    const struct gg_event *played = event->kind == GG_ENTRY ? &a->entry : event;
    trace_add_event(a->trace, event);
    a->records++;
    second_step(a->page, sizeof a->page, (uint8_t *)&a->record, sizeof a->record, (const uint8_t *)played,
                sizeof *played, &first, &second);
}

static void play_controls(struct author *a, struct gg_event entry)
{
    a->entry = entry;
    trace_add_controls(a->trace, &entry);
    a->records++;
}

/* Controls with virtual-interrupt delivery, now and then without what check 3 asks for. */
static uint32_t delivery_controls(struct random *r)
{
    static const uint32_t usual[] = {CONTROLS_M, CONTROLS_R, CONTROLS_X2,
                                     CONTROLS_X2 | GG_APIC_REGISTER_VIRTUALIZATION};
    uint32_t controls = usual[random_below(r, 4)];
    if (random_one_in(r, 32))
        controls &= ~GG_EXTERNAL_INTERRUPT_EXITING;
    if (random_one_in(r, 16))
        controls |= GG_INTERRUPT_WINDOW_EXITING;
    return controls;
}

/* Controls with a TPR threshold: the shadow without virtual-interrupt delivery. */
static uint32_t threshold_controls(struct random *r)
{
    static const uint32_t usual[] = {0, GG_VIRTUALIZE_APIC_ACCESSES,
                                     GG_VIRTUALIZE_APIC_ACCESSES | GG_APIC_REGISTER_VIRTUALIZATION,
                                     GG_VIRTUALIZE_X2APIC_MODE};
    return GG_USE_TPR_SHADOW | usual[random_below(r, 4)];
}

static struct gg_event choose_controls(struct random *r, const struct author *a)
{
    uint64_t exits[4] = {0, 0, 0, 0};
    if (a->style == STYLE_WILD) {
        struct gg_event entry = generate_event(r, GG_ENTRY);
        entry.value &= GG_CR8_STORE_EXITING * 2 - 1;
        return entry;
    }
    uint32_t controls = a->style == STYLE_DELIVERY ? delivery_controls(r) : threshold_controls(r);
    if (random_one_in(r, 16))
        controls |= GG_CR8_LOAD_EXITING;
    if (random_one_in(r, 16))
        controls |= GG_CR8_STORE_EXITING;
    if (random_one_in(r, 4))
        generate_exits(r, exits);
    uint32_t threshold = random_below(r, a->style == STYLE_THRESHOLD && !random_one_in(r, 8) ? 4 : 18);
    return gg_entry(controls, threshold, exits);
}

/* Requests and entries; the controls stay from entry to entry more often than not. */
static void step_in_root(struct author *a, struct random *r)
{
    struct gg_event request = gg_request(random_below(r, 256)), entry = gg_event_of(GG_ENTRY);
    if (random_one_in(r, 3)) {
        play(a, &request);
        return;
    }
    if (a->entry.value == 0 ? !random_one_in(r, 16) : random_one_in(r, 3))
        play_controls(a, choose_controls(r, a));
    play(a, &entry);
}

/* Writes a register by the guest's own way in: its MSR in x2APIC mode, memory otherwise. */
static struct gg_event write_register(const struct author *a, uint32_t offset, uint32_t msr, uint32_t value,
                                      uint32_t command)
{
    if (a->record.flags & GG_VIRTUALIZE_X2APIC_MODE)
        return gg_wrmsr(msr, value);
    return gg_memory_write(offset, 4, value | command, 0);
}

static struct gg_event retire(const struct author *a)
{
    return write_register(a, GG_VEOI, 0x80B, 0, 0);
}

/* One step towards one more vector in service. */
static struct gg_event climb(const struct author *a, struct random *r)
{
    uint32_t priority = gg_word(a->page, GG_VPPR) >> 4 & 15;
    if (a->record.recognised || (a->record.flags & GG_INTERRUPT_WINDOW_EXITING))
        return gg_boundary(GG_IF, (uint8_t)random_below(r, 2));
    if (priority > a->record.svi / 16u)
        return write_register(a, GG_VTPR, 0x808, 0, 0);
    if (priority == 15)
        return retire(a);
    uint32_t vector = 16 * (priority + 1) + random_below(r, 16);
    return write_register(a, GG_VICR_LO, 0x83F, vector, SELF_IPI);
}

static struct gg_event fall(const struct author *a, struct random *r)
{
    return random_one_in(r, 4) ? gg_boundary(GG_IF, GG_ACTIVE) : retire(a);
}

/* Task priorities around the threshold, by each way to write and read them. */
static struct gg_event move_priority(const struct author *a, struct random *r)
{
    uint32_t priority = random_below(r, 16);
    switch (random_below(r, 4)) {
    case 0:
        return gg_to_cr8(priority, (uint8_t)random_below(r, 16));
    case 1:
        return gg_from_cr8((uint8_t)random_below(r, 16));
    case 2:
        return gg_boundary(GG_IF, GG_ACTIVE);
    default:
        return write_register(a, GG_VTPR, 0x808, 16 * priority, 0);
    }
}

static struct gg_event any_in_guest(struct random *r)
{
    return generate_event(r, GG_MEMORY_READ + random_below(r, GG_BOUNDARY - GG_MEMORY_READ + 1));
}

static void step_in_guest(struct author *a, struct random *r)
{
    struct gg_event event;
    if (random_one_in(r, 24))
        play_controls(a, choose_controls(r, a));
    if (a->style == STYLE_WILD || random_one_in(r, 8))
        event = any_in_guest(r);
    else if (a->style == STYLE_THRESHOLD)
        event = move_priority(a, r);
    else
        event = a->step / PHASE % 2 == 0 ? climb(a, r) : fall(a, r);
    play(a, &event);
}

struct gg_event author_out_of_bounds(struct random *r, unsigned kind)
{
    static const uint16_t offsets[] = {4096, 4097, 0x8080, 0xFFFF};
    static const uint8_t sizes[] = {0, 3, 5, 6, 7, 9, 16, 255};
    struct gg_event event = generate_event(r, kind);
    uint32_t which = random_below(r, 4), above = random_below(r, 240);
    bool memory = kind == GG_MEMORY_READ || kind == GG_MEMORY_WRITE;
    if (memory && which == 0)
        event.number = offsets[above % 4];
    else if (kind == GG_MEMORY_WRITE && which == 1)
        event.flags |= GG_INSTRUCTION_FETCH;
    else if (kind == GG_MEMORY_WRITE && which == 2 && event.size < 8)
        event.value |= UINT64_C(1) << (8 * event.size + above % (64 - 8 * event.size));
    else if (memory)
        event.size = sizes[above % 8];
    else if (kind == GG_TO_CR8 && which < 2)
        event.value = 16 + above;
    else if (kind == GG_BOUNDARY)
        event.detail = (uint8_t)(4 + above);
    else
        event.detail = (uint8_t)(16 + above);
    return event;
}

/* A record that is refused, for its fields or for its mode. */
static void step_refused(struct author *a, struct random *r)
{
    static const uint8_t bounded[] = {GG_MEMORY_READ, GG_MEMORY_WRITE, GG_TO_CR8, GG_FROM_CR8, GG_BOUNDARY};
    struct gg_event event = author_out_of_bounds(r, bounded[random_below(r, 5)]);
    if (random_one_in(r, 2) && a->record.mode == GG_ROOT)
        event = any_in_guest(r);
    else if (random_one_in(r, 2) && a->record.mode == GG_GUEST)
        event = generate_event(r, random_one_in(r, 2) ? GG_ENTRY : GG_REQUEST);
    play(a, &event);
}

void author_step(struct author *a, struct random *r)
{
    if (!a->fair && random_one_in(r, 16))
        step_refused(a, r);
    else if (a->record.mode == GG_ROOT)
        step_in_root(a, r);
    else
        step_in_guest(a, r);
    a->step++;
}

void author_write(struct author *a, struct random *r, uint32_t records, size_t most)
{
    while (a->records < records && a->trace->length + STEP_MOST <= most)
        author_step(a, r);
}

void author_fill(struct author *a, size_t length)
{
    const struct gg_event entry = gg_event_of(GG_ENTRY), request = gg_request(0), cr8 = gg_to_cr8(0, 0);
    while (a->trace->length < length) {
        size_t left = length - a->trace->length;
        play(a, left == 4 || left == 7 || left == 8 ? &request : left == 5 ? &cr8 : &entry);
    }
}
