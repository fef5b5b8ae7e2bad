/* Systematic sweeps; a case's index is read as digits, one for each setting. */
#include "sweep.h"

#include "generate.h"
#include "posting.h"
#include "question.h"

#include <string.h>

#define COUNT(array) (sizeof(array) / sizeof((array)[0]))

uint32_t choices(uint64_t *index, uint32_t set)
{
    uint32_t chosen = 0;
    for (uint32_t control = 1; control <= GG_ALL_CONTROLS; control <<= 1)
        if ((set & control) && digit(index, 2))
            chosen |= control;
    return chosen;
}

/* Vectors in both registers, RVI and SVI at their highest, a task priority below. */
static void busy_page(struct trial *t, uint8_t *rvi, uint8_t *svi)
{
    static const uint8_t waiting[] = {0x00, 0x31, 0x52, 0x7F}, served[] = {0x11, 0x34, 0x50};
    for (size_t i = 0; i < COUNT(waiting); i++)
        trial_put_vector(t, GG_VIRR, waiting[i], true);
    for (size_t i = 0; i < COUNT(served); i++)
        trial_put_vector(t, GG_VISR, served[i], true);
    trial_put_word(t, GG_VTPR, 0x4A);
    trial_put_word(t, GG_VPPR, 0x50);
    *rvi = 0x7F;
    *svi = 0x50;
}

void busy_guest(struct trial *t, uint32_t controls)
{
    trial_fresh(t);
    struct gg_record record = trial_record(t);
    busy_page(t, &record.rvi, &record.svi);
    record.mode = GG_GUEST;
    record.threshold = 5;
    record.flags = controls;
    trial_set_record(t, &record);
}

/* Bytes around the registers, so that a read shows which ones it takes. */
static void mark_rows(struct random *r, struct trial *t)
{
    uint64_t key = random_next(r) | 1;
    for (uint32_t row = 0; row < GG_PAGE_LENGTH; row += 16) {
        bool bits = row >= GG_VISR && row < GG_VIRR + 0x80;
        uint64_t low = key * (row + 1), high = ~low;
        if (!bits && row != GG_VTPR && row != GG_VPPR)
            memcpy(trial_page(t) + row, &low, sizeof low);
        memcpy(trial_page(t) + row + 8, &high, sizeof high);
    }
}

/* The controls that decide what a register access does, besides its own way in. */
#define REGISTER_CONTROLS \
    (GG_USE_TPR_SHADOW | GG_APIC_REGISTER_VIRTUALIZATION | GG_VIRTUAL_INTERRUPT_DELIVERY)

enum { MEMORY_CASES = 4096 * 4 * 3 * 32 };

static void sweep_memory(struct random *r, uint64_t index, struct trial *t)
{
    uint32_t offset = digit(&index, GG_PAGE_LENGTH), access = digit(&index, 3);
    uint8_t size = (uint8_t)(1u << digit(&index, 4)), flags = digit(&index, 2) ? GG_ALREADY_VIRTUALISED : 0;
    busy_guest(t, choices(&index, GG_VIRTUALIZE_APIC_ACCESSES | REGISTER_CONTROLS));
    mark_rows(r, t);
    uint64_t value = random_next(r) >> (64 - 8 * size);
    struct gg_event event = access == 1 ? gg_memory_write(offset, size, value, flags)
                                        : gg_memory_read(offset, size, flags | (access == 2));
    trial_set_event(t, &event);
}

static const uint32_t icr_bases[] = {
    SELF_IPI | 0x71, SELF_IPI | 0x10, SELF_IPI | 0x0F, SELF_IPI | 0xFF, 0x00042071,
    0x00000071,      0x00080071,      0x000C0071,      0xFFFFFFFF,      0x00000000,
};

enum { ICR_CASES = 33 * 33 * COUNT(icr_bases) * 3 * 8 };

/* Every bit flipped alone and every pair, written whole or by its low bytes only. */
static void sweep_icr(struct random *r, uint64_t index, struct trial *t)
{
    uint32_t one = one_bit(&index), other = one_bit(&index);
    uint32_t icr = icr_bases[digit(&index, COUNT(icr_bases))];
    uint8_t size = (uint8_t)(1u << digit(&index, 3));
    uint32_t mask = 0xFFFFFFFFu >> (32 - 8 * size);
    icr ^= one ^ other;
    busy_guest(t, GG_VIRTUALIZE_APIC_ACCESSES | choices(&index, REGISTER_CONTROLS));
    trial_put_word(t, GG_VICR_LO, (icr & ~mask) | ((uint32_t)random_next(r) & mask));
    struct gg_event event = gg_memory_write(GG_VICR_LO, size, icr & mask, 0);
    trial_set_event(t, &event);
}

static const uint32_t far_indices[] = {
    0x0, 0x8, 0xB, 0x3F, 0x108, 0x10808, 0x80000808, 0xC0000080, 0xFFFFF808, 0xFFFFFFFF,
};
static const uint64_t msr_values[] = {
    0, 1, 0x0F, 0x10, 0x71, 0xFF, 0x100, 0x110, UINT64_C(1) << 32, UINT64_C(1) << 63, UINT64_MAX,
};

enum { NEAR_INDICES = 0x120, MSR_INDICES = NEAR_INDICES + COUNT(far_indices) };
enum { MSR_CASES = MSR_INDICES * (COUNT(msr_values) + 1) * 16 };

static void sweep_msr(struct random *r, uint64_t index, struct trial *t)
{
    uint32_t which = digit(&index, MSR_INDICES), value = digit(&index, COUNT(msr_values) + 1);
    uint32_t msr = which < NEAR_INDICES ? 0x7F0 + which : far_indices[which - NEAR_INDICES];
    busy_guest(t, choices(&index, GG_VIRTUALIZE_X2APIC_MODE | REGISTER_CONTROLS));
    mark_rows(r, t);
    struct gg_event event = value == COUNT(msr_values) ? gg_rdmsr(msr) : gg_wrmsr(msr, msr_values[value]);
    trial_set_event(t, &event);
}

static const uint32_t far_thresholds[] = {0x1F, 0x20, 0x25, 0x100, 0x80000005, 0xFFFFFFF0, 0xFFFFFFFF};

/* How the guest reaches its registers: by memory, by MSRs, by neither. */
static const uint32_t reaches[] = {GG_VIRTUALIZE_APIC_ACCESSES, GG_VIRTUALIZE_X2APIC_MODE, 0};

enum { THRESHOLDS = 18 + COUNT(far_thresholds), THRESHOLD_CASES = THRESHOLDS * 16 * 2 * 4 * 4 * 3 };

/* Thresholds against every class, at entry from other controls and by each of the three ways to write VTPR. */
static void sweep_threshold(struct random *r, uint64_t index, struct trial *t)
{
    (void)r;
    uint32_t which = digit(&index, THRESHOLDS), high = digit(&index, 16), vtpr = 16 * high;
    uint32_t threshold = which < 18 ? which : far_thresholds[which - 18], way = digit(&index, 4);
    vtpr += 15 * digit(&index, 2);
    uint32_t controls = choices(&index, GG_USE_TPR_SHADOW | GG_VIRTUAL_INTERRUPT_DELIVERY);
    controls |= GG_EXTERNAL_INTERRUPT_EXITING | reaches[digit(&index, COUNT(reaches))];
    busy_guest(t, way == 0 ? GG_CR8_STORE_EXITING : controls);
    struct gg_record record = trial_record(t);
    record.threshold = way == 0 ? 3 : threshold;
    record.mode = way == 0 ? GG_ROOT : GG_GUEST;
    trial_set_record(t, &record);
    trial_put_word(t, GG_VTPR, way == 0 ? vtpr : 0xFFFFFF37);
    const struct gg_event ways[] = {gg_entry(controls, threshold, NULL),
                                    gg_memory_write(GG_VTPR, 1, vtpr, 0), gg_to_cr8(high, 3),
                                    gg_wrmsr(0x808, vtpr)};
    trial_set_event(t, &ways[way]);
}

enum { VECTOR_CASES = 256 * 6 * 2 * 4 * 3 * 2 };

/* Whether a neighbour of a vector is set too: none, all lower ones, all higher ones, all. */
static void set_neighbours(struct trial *t, uint32_t vector, uint32_t which)
{
    for (uint32_t v = 0; v < 256; v++)
        if ((v < vector && (which & 1)) || (v > vector && (which & 2))) {
            trial_put_vector(t, GG_VIRR, v, true);
            trial_put_vector(t, GG_VISR, v, true);
        }
}

/* Every vector, by each way in which a vector is requested, delivered or retired. */
static void sweep_vector(struct random *r, uint64_t index, struct trial *t)
{
    (void)r;
    static const uint8_t priorities[] = {0x00, 0x5F, 0xF0};
    uint32_t vector = digit(&index, 256), way = digit(&index, 6), word = vector / 64;
    uint64_t exit_bit = (uint64_t)digit(&index, 2) << vector % 64;
    trial_fresh(t);
    set_neighbours(t, vector, digit(&index, 4));
    uint8_t priority = priorities[digit(&index, 3)];
    struct gg_record record = trial_record(t);
    record.mode = way == 0 ? GG_ROOT : GG_GUEST;
    record.flags = CONTROLS_V | choices(&index, GG_INTERRUPT_WINDOW_EXITING);
    record.flags |= way % 2 ? GG_VIRTUALIZE_APIC_ACCESSES : GG_VIRTUALIZE_X2APIC_MODE;
    record.rvi = way == 5 ? (uint8_t)vector : 0x40;
    record.svi = (uint8_t)vector;
    record.recognised = way == 5;
    record.eoi_exit[word] = exit_bit;
    trial_set_record(t, &record);
    trial_put_word(t, GG_VTPR, priority);
    trial_put_vector(t, GG_VISR, vector, way == 3 || way == 4);
    trial_put_vector(t, GG_VIRR, vector, way == 5);
    const struct gg_event ways[] = {gg_request(vector), gg_memory_write(GG_VICR_LO, 4, SELF_IPI | vector, 0),
                                    gg_wrmsr(0x83F, vector), gg_memory_write(GG_VEOI, 4, 0x12345678, 0),
                                    gg_wrmsr(0x80B, 0), gg_boundary(GG_IF, GG_ACTIVE)};
    trial_set_event(t, &ways[way]);
}

enum { CR8_CASES = 18 * 18 * 2 * 16 };

static void sweep_cr8(struct random *r, uint64_t index, struct trial *t)
{
    (void)r;
    uint32_t value = digit(&index, 18), to = digit(&index, 2);
    uint8_t general = (uint8_t)digit(&index, 18);
    busy_guest(t, choices(&index, GG_USE_TPR_SHADOW | GG_VIRTUAL_INTERRUPT_DELIVERY |
                                      GG_CR8_LOAD_EXITING | GG_CR8_STORE_EXITING));
    trial_put_word(t, GG_VTPR, 0xABCDE000 | value * 15);
    struct gg_event event = to ? gg_to_cr8(value, general) : gg_from_cr8(general);
    trial_set_event(t, &event);
}

static const uint8_t boundary_rvi[] = {0x00, 0x0F, 0x10, 0x60, 0x65, 0x7F, 0x80, 0xFF};

enum { BOUNDARY_CASES = 16 * 6 * 8 * COUNT(boundary_rvi) };

static void sweep_boundary(struct random *r, uint64_t index, struct trial *t)
{
    (void)r;
    uint8_t flags = (uint8_t)digit(&index, 16), activity = (uint8_t)digit(&index, 6);
    busy_guest(t, choices(&index, GG_VIRTUAL_INTERRUPT_DELIVERY | GG_INTERRUPT_WINDOW_EXITING));
    struct gg_record record = trial_record(t);
    record.recognised = (uint8_t)digit(&index, 2);
    record.rvi = boundary_rvi[digit(&index, COUNT(boundary_rvi))];
    trial_set_record(t, &record);
    trial_put_word(t, GG_VPPR, 0xFFFFFFFF);
    struct gg_event event = gg_boundary(flags, activity);
    trial_set_event(t, &event);
}

static const uint32_t entry_thresholds[] = {0, 5, 15, 16, 0xFFFFFFFF};
static const uint8_t entry_vtpr[] = {0x00, 0x4F, 0x50, 0xFF};

enum { ENTRY_CASES = (GG_ALL_CONTROLS + 1) * 5 * 4 * 2 };

/* Every set of controls, so that every pair of failing checks meets; RVI is drawn. */
static void sweep_entry(struct random *r, uint64_t index, struct trial *t)
{
    static const uint8_t rvis[] = {0x00, 0x5F, 0xFF};
    uint32_t controls = digit(&index, GG_ALL_CONTROLS + 1);
    uint32_t threshold = entry_thresholds[digit(&index, 5)];
    uint8_t vtpr = entry_vtpr[digit(&index, 4)];
    busy_guest(t, GG_CR8_STORE_EXITING);
    struct gg_record record = trial_record(t);
    record.rvi = rvis[random_below(r, 3)];
    record.recognised = random_one_in(r, 2);
    record.mode = GG_ROOT;
    trial_set_record(t, &record);
    trial_put_word(t, GG_VTPR, vtpr);
    trial_put_word(t, GG_VPPR, 0xFFFFFFFF);
    uint64_t exits[4];
    generate_exits(r, exits);
    struct gg_event event = gg_entry_notified(controls, threshold, exits, digit(&index, 2) ? 256 : 255);
    trial_set_event(t, &event);
}

enum { PRIORITY_CASES = 256 * 256 };

/* Every VTPR against every SVI, with an RVI near the border. */
static void sweep_priority(struct random *r, uint64_t index, struct trial *t)
{
    uint32_t vtpr = digit(&index, 256), svi = digit(&index, 256);
    uint32_t higher = vtpr / 16 > svi / 16 ? vtpr : svi;
    busy_guest(t, CONTROLS_M);
    struct gg_record record = trial_record(t);
    record.svi = (uint8_t)svi;
    record.rvi = (uint8_t)(higher - 17 + random_below(r, 35));
    record.recognised = random_one_in(r, 2);
    trial_set_record(t, &record);
    struct gg_event event = gg_memory_write(GG_VTPR, 4, 0xFFFFFF00 | vtpr, 0);
    trial_set_event(t, &event);
}

static const uint8_t small_lengths[] = {48, 0, 47, 49, 64};
static const uint8_t truths[] = {0, 1, 2, 255};
static const struct {
    uint32_t flags;
    uint8_t reserved_zero[2];
} strays[] = {{0, {0}}, {UINT32_C(1) << 11, {0}}, {UINT32_C(1) << 31, {0}}, {0, {1}}, {0, {0, 0x80}}};

static void put_stray(struct gg_record *record, uint32_t stray)
{
    record->flags |= strays[stray].flags;
    memcpy(record->reserved_zero, strays[stray].reserved_zero, sizeof record->reserved_zero);
}

enum { REFUSAL_CASES = PAGE_LENGTHS * 5 * 5 * 4 * 4 * COUNT(strays) * 12 };

/* Every pair of reasons to refuse, so that their order shows. */
static void sweep_refusal(struct random *r, uint64_t index, struct trial *t)
{
    generate_state(r, t);
    struct gg_record record = trial_record(t);
    trial_set_page_length(t, page_lengths[digit(&index, PAGE_LENGTHS)]);
    t->record_len = small_lengths[digit(&index, 5)];
    t->event_len = small_lengths[digit(&index, 5)];
    record.mode = truths[digit(&index, 4)];
    record.recognised = truths[digit(&index, 4)];
    put_stray(&record, digit(&index, COUNT(strays)));
    trial_set_record(t, &record);
    uint32_t kind = digit(&index, 12);
    struct gg_event event = generate_event(r, kind);
    event.kind = (uint8_t)kind;
    trial_set_event(t, &event);
}

static const uint32_t external_vectors[] = {0xF2, 0x1F2, 256, UINT32_MAX};

enum { EXTERNAL_CASES = PAGE_LENGTHS * DESCRIPTOR_LENGTHS * 5 * 4 * COUNT(strays) * COUNT(external_vectors) };

/* Every pair of reasons to refuse an external interrupt; notification vector F2H or 1F2H. */
static void sweep_external(struct random *r, uint64_t index, struct trial *t)
{
    generate_state(r, t);
    posting_set(r, t);
    struct gg_record record = trial_record(t);
    trial_set_page_length(t, page_lengths[digit(&index, PAGE_LENGTHS)]);
    t->descriptor_len = descriptor_lengths[digit(&index, DESCRIPTOR_LENGTHS)];
    t->record_len = small_lengths[digit(&index, 5)];
    record.mode = truths[digit(&index, 4)];
    record.notification_vector = random_one_in(r, 2) ? 0xF2 : 0x1F2;
    put_stray(&record, digit(&index, COUNT(strays)));
    trial_set_record(t, &record);
    trial_set_external(t, external_vectors[digit(&index, COUNT(external_vectors))]);
}

enum { FIELD_CASES = 11 * 6 * 256 * 2 };

/* Every value of each one-byte field, and the edges of the wider ones, for every kind. */
static void sweep_field(struct random *r, uint64_t index, struct trial *t)
{
    uint32_t kind = digit(&index, 11), field = digit(&index, 6), value = digit(&index, 256);
    uint64_t edge = (UINT64_C(1) << value % 64) - (value >= 128);
    generate_state(r, t);
    struct gg_record record = trial_record(t);
    record.mode = (uint8_t)digit(&index, 2);
    trial_set_record(t, &record);
    struct gg_event event = generate_event(r, kind);
    event.kind = field == 5 ? (uint8_t)value : (uint8_t)kind;
    if (field == 0)
        event.size = (uint8_t)value;
    if (field == 1)
        event.flags = (uint8_t)value;
    if (field == 2)
        event.detail = (uint8_t)value;
    if (field == 3)
        event.number = (uint32_t)edge;
    if (field == 4)
        event.value = edge;
    trial_set_event(t, &event);
}

/* Puts 32 bits over bytes 12 to 15 of a record: the notification vector, then the reserved bytes. */
static void put_upper(struct gg_record *record, uint32_t bits)
{
    memcpy((uint8_t *)record + offsetof(struct gg_record, notification_vector), &bits, sizeof bits);
}

/* The nine kinds of event, and the external interrupt after them. */
enum { ASKED_KINDS = 10, RESERVED_CASES = 33 * 33 * ASKED_KINDS * 2, FLAG_CASES = RESERVED_CASES };

/* An event of a kind with some bits put into its value, or an external interrupt, in either mode. */
static void ask_by_kind(struct random *r, uint64_t *index, struct trial *t, struct gg_record *record,
                        uint64_t in_value)
{
    uint32_t kind = GG_ENTRY + digit(index, ASKED_KINDS);
    record->mode = (uint8_t)digit(index, 2);
    trial_set_record(t, record);
    struct gg_event event = generate_event(r, kind);
    event.value |= in_value;
    trial_set_event(t, &event);
    if (kind <= GG_REQUEST)
        return;
    posting_descriptor(r, t);
    trial_set_external(t, posting_vector_for(r, t));
}

/* Every bit of bytes 12 to 15, in the record and in the event, for every kind. */
static void sweep_reserved(struct random *r, uint64_t index, struct trial *t)
{
    uint32_t in_record = one_bit(&index), in_event = one_bit(&index);
    generate_state(r, t);
    struct gg_record record = trial_record(t);
    put_upper(&record, in_record);
    ask_by_kind(r, &index, t, &record, (uint64_t)in_event << 32);
}

/* Every bit of the flags, in the record and in the event, for every kind. */
static void sweep_flag(struct random *r, uint64_t index, struct trial *t)
{
    uint32_t in_record = one_bit(&index), in_event = one_bit(&index);
    generate_state(r, t);
    struct gg_record record = trial_record(t);
    record.flags |= in_record;
    ask_by_kind(r, &index, t, &record, in_event);
}

enum { LEAVE_CASES = 33 * 33 * 4 * 4 * COUNT(small_lengths) };

/* Every bit of a record's flags and of the bytes after them, with every other reason to refuse a leave. */
static void sweep_leave(struct random *r, uint64_t index, struct trial *t)
{
    uint32_t flag = one_bit(&index), upper = one_bit(&index);
    generate_state(r, t);
    struct gg_record record = trial_record(t);
    record.flags |= flag;
    put_upper(&record, upper);
    record.mode = truths[digit(&index, 4)];
    record.recognised = truths[digit(&index, 4)];
    trial_set_record(t, &record);
    t->record_len = small_lengths[digit(&index, COUNT(small_lengths))];
    t->operation = TRIAL_LEAVE;
}

const struct sweep sweeps[] = {
    {"memory", MEMORY_CASES, sweep_memory},       {"icr", ICR_CASES, sweep_icr},
    {"msr", MSR_CASES, sweep_msr},                {"threshold", THRESHOLD_CASES, sweep_threshold},
    {"vector", VECTOR_CASES, sweep_vector},       {"cr8", CR8_CASES, sweep_cr8},
    {"boundary", BOUNDARY_CASES, sweep_boundary}, {"entry", ENTRY_CASES, sweep_entry},
    {"priority", PRIORITY_CASES, sweep_priority}, {"refusal", REFUSAL_CASES, sweep_refusal},
    {"field", FIELD_CASES, sweep_field},          {"reserved", RESERVED_CASES, sweep_reserved},
    {"leave", LEAVE_CASES, sweep_leave},          {"highest-bit", QUESTION_BITS, question_bit},
    {"highest-pair", QUESTION_PAIRS, question_pair},
    {"highest-base", QUESTION_BASES, question_base},
    {"posted-alone", POSTING_ALONE, posting_alone},
    {"posted-pair", POSTING_PAIRS, posting_pair},
    {"notification", POSTING_NOTIFICATIONS, posting_notification},
    {"posted-entry", POSTING_ENTRIES, posting_entry},
    {"external", EXTERNAL_CASES, sweep_external},
    {"flag", FLAG_CASES, sweep_flag},
    {NULL, 0, NULL},
};
