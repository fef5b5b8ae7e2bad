/*
 * Random states and events, pulled towards the places where the rules change.
 * Draws stand in statements of their own, since C leaves the order of arguments open.
 */
#include "generate.h"

#include "posting.h"

#include <string.h>

static const uint32_t usual_controls[] = {
    GG_USE_TPR_SHADOW,
    GG_USE_TPR_SHADOW | GG_VIRTUALIZE_APIC_ACCESSES,
    GG_USE_TPR_SHADOW | GG_VIRTUALIZE_APIC_ACCESSES | GG_APIC_REGISTER_VIRTUALIZATION,
    GG_USE_TPR_SHADOW | GG_VIRTUALIZE_X2APIC_MODE,
    CONTROLS_V,
    CONTROLS_M,
    CONTROLS_R,
    CONTROLS_X2,
    CONTROLS_X2 | GG_APIC_REGISTER_VIRTUALIZATION,
    CONTROLS_V | CONTROLS_POSTING,
    CONTROLS_R | CONTROLS_POSTING,
};

enum { USUAL = sizeof usual_controls / sizeof usual_controls[0] };

static uint32_t any_controls(struct random *r)
{
    if (random_one_in(r, 2))
        return (uint32_t)random_next(r) & GG_ALL_CONTROLS;
    uint32_t controls = usual_controls[random_below(r, USUAL)];
    if (random_one_in(r, 8))
        controls |= GG_INTERRUPT_WINDOW_EXITING;
    if (random_one_in(r, 4))
        controls |= GG_CR8_LOAD_EXITING;
    if (random_one_in(r, 4))
        controls |= GG_CR8_STORE_EXITING;
    return controls;
}

static uint32_t any_threshold(struct random *r)
{
    switch (random_below(r, 4)) {
    case 0:
        return (uint32_t)random_next(r);
    case 1:
        return random_below(r, 64);
    default:
        return random_below(r, 18);
    }
}

uint16_t generate_notification(struct random *r)
{
    uint32_t bits = (uint32_t)random_next(r);
    if (random_one_in(r, 8))
        return (uint16_t)bits;
    return random_one_in(r, 16) ? 256 : bits % 256;
}

void generate_exits(struct random *r, uint64_t exits[4])
{
    unsigned density = random_below(r, 4);
    for (int word = 0; word < 4; word++) {
        exits[word] = density == 0 ? 0 : random_next(r);
        for (unsigned thin = 1; thin < density; thin++)
            exits[word] &= random_next(r);
    }
}

static void any_record(struct random *r, struct gg_record *record)
{
    uint64_t bits = random_next(r);
    memset(record, 0, sizeof *record);
    record->mode = bits & 1;
    record->recognised = bits >> 1 & 1;
    record->rvi = (uint8_t)(bits >> 8);
    record->svi = (uint8_t)(bits >> 16);
    record->threshold = any_threshold(r);
    record->flags = any_controls(r);
    record->notification_vector = generate_notification(r);
    generate_exits(r, record->eoi_exit);
}

void generate_bytes(struct random *r, uint8_t *to, size_t count)
{
    for (size_t at = 0; at + 8 <= count; at += 8) {
        uint64_t bits = random_next(r);
        memcpy(to + at, &bits, sizeof bits);
    }
}

/* A few vectors in a register, so that the search for the highest has to run. */
static void some_vectors(struct random *r, struct trial *t, uint32_t base)
{
    for (uint32_t left = random_below(r, 5); left > 0; left--)
        trial_put_vector(t, base, random_below(r, 256), true);
}

static void any_page(struct random *r, struct trial *t)
{
    if (random_one_in(r, 4)) {
        generate_bytes(r, trial_page(t), GG_PAGE_LENGTH);
    } else {
        some_vectors(r, t, GG_VISR);
        some_vectors(r, t, GG_VIRR);
        for (uint32_t left = random_below(r, 16); left > 0; left--) {
            uint32_t at = random_below(r, GG_PAGE_LENGTH);
            trial_page(t)[at] = (uint8_t)random_next(r);
        }
    }
    if (random_one_in(r, 2))
        trial_put_word(t, GG_VTPR, random_below(r, 256));
    if (random_one_in(r, 2))
        trial_put_word(t, GG_VPPR, random_below(r, 256));
    if (random_one_in(r, 2))
        trial_put_word(t, GG_VICR_LO, SELF_IPI | random_below(r, 256));
}

void generate_state(struct random *r, struct trial *t)
{
    struct gg_record record;
    trial_fresh(t);
    any_record(r, &record);
    trial_set_record(t, &record);
    any_page(r, t);
}

static struct gg_event any_entry(struct random *r)
{
    uint64_t exits[4];
    uint32_t controls = any_controls(r), threshold = any_threshold(r);
    generate_exits(r, exits);
    return gg_entry_notified(controls, threshold, exits, generate_notification(r));
}

/* Half of the offsets hit or just miss a register, the others lie anywhere. */
static uint32_t any_offset(struct random *r)
{
    static const uint16_t hot[] = {GG_VTPR, GG_VEOI, GG_VICR_LO, GG_VICR_HI, GG_VPPR};
    uint32_t row = 16 * random_below(r, 64), byte = random_below(r, 6);
    switch (random_below(r, 4)) {
    case 0:
        return random_below(r, GG_PAGE_LENGTH);
    case 1:
        return row + byte;
    case 2:
        return row;
    default:
        return hot[row % 5] + (random_one_in(r, 4) ? byte : 0);
    }
}

static uint8_t any_size(struct random *r)
{
    return (uint8_t)(random_one_in(r, 2) ? 4 : 1u << random_below(r, 4));
}

static uint64_t cut_to(uint64_t value, unsigned size)
{
    return size == 8 ? value : value & ((UINT64_C(1) << 8 * size) - 1);
}

/* A good self-IPI with up to two bits flipped, or anything. */
static uint64_t any_written(struct random *r)
{
    if (random_one_in(r, 3))
        return random_next(r);
    uint64_t value = SELF_IPI | random_below(r, 256);
    for (uint32_t left = random_below(r, 3); left > 0; left--)
        value ^= UINT64_C(1) << random_below(r, 32);
    return value;
}

static struct gg_event any_memory(struct random *r, unsigned kind)
{
    uint8_t size = any_size(r), flags = random_one_in(r, 8) ? GG_ALREADY_VIRTUALISED : 0;
    uint32_t offset = any_offset(r);
    if (kind == GG_MEMORY_WRITE)
        return gg_memory_write(offset, size, cut_to(any_written(r), size), flags);
    if (random_one_in(r, 8))
        flags |= GG_INSTRUCTION_FETCH;
    return gg_memory_read(offset, size, flags);
}

static uint32_t any_msr(struct random *r)
{
    static const uint16_t hot[] = {0x808, 0x80B, 0x83F};
    switch (random_below(r, 8)) {
    case 0:
        return (uint32_t)random_next(r);
    case 1:
        return 0x7F8 + random_below(r, 0x110);
    case 2:
        return 0x800 + random_below(r, 0x100);
    default:
        return hot[random_below(r, 3)];
    }
}

static uint64_t any_msr_value(struct random *r)
{
    switch (random_below(r, 8)) {
    case 0:
        return random_next(r);
    case 1:
        return random_below(r, 0x200);
    case 2:
        return UINT64_C(1) << random_below(r, 64);
    case 3:
        return 0;
    case 4:
        return random_below(r, 18);
    default:
        return random_below(r, 256);
    }
}

static struct gg_event any_boundary(struct random *r)
{
    uint8_t flags = (uint8_t)random_below(r, 8), activity = (uint8_t)random_below(r, 4);
    return random_one_in(r, 2) ? gg_boundary(GG_IF, activity & 1) : gg_boundary(flags, activity);
}

static struct gg_event any_cr8(struct random *r, unsigned kind)
{
    uint8_t value = (uint8_t)random_below(r, 16), general = (uint8_t)random_below(r, 16);
    return kind == GG_TO_CR8 ? gg_to_cr8(value, general) : gg_from_cr8(general);
}

static struct gg_event any_msr_access(struct random *r, unsigned kind)
{
    uint32_t index = any_msr(r);
    return kind == GG_RDMSR ? gg_rdmsr(index) : gg_wrmsr(index, any_msr_value(r));
}

struct gg_event generate_event(struct random *r, unsigned kind)
{
    switch (kind) {
    case GG_ENTRY:
        return any_entry(r);
    case GG_MEMORY_READ:
    case GG_MEMORY_WRITE:
        return any_memory(r, kind);
    case GG_TO_CR8:
    case GG_FROM_CR8:
        return any_cr8(r, kind);
    case GG_RDMSR:
    case GG_WRMSR:
        return any_msr_access(r, kind);
    case GG_BOUNDARY:
        return any_boundary(r);
    default:
        return gg_request(random_below(r, 256));
    }
}

/* Fills the fields that the kind doesn't name, since they have to be ignored. */
static void fill_unnamed(struct random *r, struct gg_event *event)
{
    uint64_t bits = random_next(r);
    bool memory = event->kind == GG_MEMORY_READ || event->kind == GG_MEMORY_WRITE;
    bool cr8 = event->kind == GG_TO_CR8 || event->kind == GG_FROM_CR8;
    bool boundary = event->kind == GG_BOUNDARY;
    if (!memory)
        event->size = (uint8_t)bits;
    if (!memory && !boundary)
        event->flags = (uint8_t)(bits >> 8);
    if (!cr8 && !boundary)
        event->detail = (uint8_t)(bits >> 16);
    if (cr8 || boundary)
        event->number = (uint32_t)(bits >> 32);
    if (event->kind == GG_MEMORY_READ || event->kind == GG_FROM_CR8 || event->kind == GG_RDMSR ||
        boundary || event->kind == GG_REQUEST)
        event->value = random_next(r);
    if (event->kind != GG_ENTRY)
        generate_exits(r, event->eoi_exit);
}

/* Most steps are in the mode that their kind needs, a few are not. */
static void suit_mode(struct random *r, struct trial *t, unsigned kind)
{
    struct gg_record record = trial_record(t);
    bool root = kind == GG_ENTRY || kind == GG_REQUEST;
    record.mode = root != random_one_in(r, 16) ? GG_ROOT : GG_GUEST;
    trial_set_record(t, &record);
}

void generate_single(struct random *r, struct trial *t)
{
    unsigned kind = GG_ENTRY + random_below(r, KIND_EXTERNAL);
    generate_state(r, t);
    suit_mode(r, t, kind);
    if (kind == KIND_EXTERNAL) {
        posting_set(r, t);
        return;
    }
    if (kind == KIND_LEAVE) {
        t->operation = TRIAL_LEAVE;
        return;
    }
    struct gg_event event = generate_event(r, kind);
    if (random_one_in(r, 4))
        fill_unnamed(r, &event);
    trial_set_event(t, &event);
}
