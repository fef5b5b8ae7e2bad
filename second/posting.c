/* External interrupts: descriptors of any density, vectors near the notification vector, wrong lengths. */
#include "posting.h"

#include "sweep.h"

#include <string.h>

enum { REQUESTS = 32, OUTSTANDING = 1 };

const uint8_t descriptor_lengths[DESCRIPTOR_LENGTHS] = {GG_DESCRIPTOR_LENGTH, 0, 63, 65, DESCRIPTOR_ROOM};

void posting_length(struct random *r, struct trial *t)
{
    t->descriptor_len = descriptor_lengths[1 + random_below(r, DESCRIPTOR_LENGTHS - 1)];
}

static void post(struct trial *t, uint32_t vector)
{
    trial_descriptor(t)[vector / 8] |= (uint8_t)(1u << vector % 8);
}

/* How the requests are filled: with none, a few, about half of the lowest bytes' bits, all. */
enum { NONE, FEW, MANY, ALL, DENSITIES };

static void any_requests(struct random *r, struct trial *t)
{
    unsigned density = random_below(r, DENSITIES);
    uint32_t few = 1 + random_below(r, 4), filled = random_below(r, REQUESTS + 1);
    memset(trial_descriptor(t), density == ALL ? 0xFF : 0, REQUESTS);
    if (density == MANY) {
        generate_bytes(r, trial_descriptor(t), REQUESTS);
        memset(trial_descriptor(t) + filled, 0, REQUESTS - filled);
    }
    for (; density == FEW && few > 0; few--)
        post(t, random_below(r, 256));
}

void posting_descriptor(struct random *r, struct trial *t)
{
    uint8_t *rest = trial_descriptor(t) + REQUESTS;
    any_requests(r, t);
    memset(rest, 0, GG_DESCRIPTOR_LENGTH - REQUESTS);
    if (random_one_in(r, 2))
        generate_bytes(r, rest, GG_DESCRIPTOR_LENGTH - REQUESTS);
    rest[0] ^= random_one_in(r, 2) ? OUTSTANDING : 0;
}

uint32_t posting_vector_for(struct random *r, const struct trial *t)
{
    uint32_t any = random_below(r, 256);
    return random_one_in(r, 4) ? any : trial_record(t).notification_vector & 0xFFu;
}

/* Now and then a reason to refuse, or several, so that their order shows. */
static void spoil(struct random *r, struct trial *t)
{
    if (random_one_in(r, 8))
        posting_length(r, t);
    uint32_t bits = (uint32_t)random_next(r), shift = random_below(r, 32);
    if (random_one_in(r, 16))
        t->vector = bits >> shift;
    if (random_one_in(r, 32))
        t->record_len = GG_RECORD_LENGTH - 1;
    if (random_one_in(r, 32))
        generate_page_length(r, t);
}

void posting_set(struct random *r, struct trial *t)
{
    struct gg_record record = trial_record(t);
    if (!random_one_in(r, 4))
        record.flags |= GG_EXTERNAL_INTERRUPT_EXITING | GG_PROCESS_POSTED_INTERRUPTS;
    trial_set_record(t, &record);
    posting_descriptor(r, t);
    trial_set_external(t, posting_vector_for(r, t));
    spoil(r, t);
}

void posting_any(struct random *r, struct trial *t)
{
    generate_state(r, t);
    t->record_bytes[GUARD] = random_one_in(r, 8) ? GG_ROOT : GG_GUEST;
    posting_set(r, t);
}

/* A guest with posting, its notification vector F2H, on an empty page. */
static struct gg_record posted_guest(struct trial *t)
{
    trial_fresh(t);
    struct gg_record record = trial_record(t);
    record.mode = GG_GUEST;
    record.flags = CONTROLS_V | CONTROLS_POSTING;
    record.notification_vector = 0xF2;
    return record;
}

/* What is requested before: nothing, 40 alone, every vector; or 80 in RVI without its bit. */
static void set_requests(struct trial *t, struct gg_record *record, uint32_t which)
{
    static const uint8_t rvis[] = {0x00, 0x40, 0xFF, 0x80};
    record->rvi = rvis[which];
    if (which == 1)
        trial_put_vector(t, GG_VIRR, 0x40, true);
    for (uint32_t row = 0; which == 2 && row < 8; row++)
        trial_put_word(t, GG_VIRR + 16 * row, UINT32_MAX);
}

void posting_alone(struct random *r, uint64_t index, struct trial *t)
{
    static const uint8_t priorities[] = {0x00, 0x5F, 0xF0};
    struct gg_record record = posted_guest(t);
    uint32_t vector = digit(&index, 257), requests = digit(&index, 4);
    set_requests(t, &record, requests);
    trial_put_word(t, GG_VPPR, priorities[digit(&index, 3)]);
    record.flags |= choices(&index, GG_INTERRUPT_WINDOW_EXITING);
    record.recognised = random_one_in(r, 2);
    trial_set_record(t, &record);
    trial_descriptor(t)[REQUESTS] = digit(&index, 2) ? OUTSTANDING : 0;
    if (vector < 256)
        post(t, vector);
    trial_set_external(t, record.notification_vector);
}

void posting_pair(struct random *r, uint64_t index, struct trial *t)
{
    struct gg_record record = posted_guest(t);
    uint32_t one = digit(&index, REQUESTS), other = digit(&index, REQUESTS);
    post(t, 8 * one + digit(&index, 8));
    post(t, 8 * other + random_below(r, 8));
    set_requests(t, &record, random_below(r, 2));
    trial_set_record(t, &record);
    trial_set_external(t, record.notification_vector);
}

/* The notification vector that a digit stands for. */
static uint16_t notification(uint64_t *index)
{
    uint32_t which = digit(index, NOTIFICATIONS);
    return which <= 256 ? (uint16_t)which : 0xFFFF;
}

/* The controls that decide what an external interrupt does, and those that it doesn't look at. */
#define EXTERNAL_CONTROLS \
    (GG_VIRTUAL_INTERRUPT_DELIVERY | GG_EXTERNAL_INTERRUPT_EXITING | CONTROLS_POSTING)

void posting_notification(struct random *r, uint64_t index, struct trial *t)
{
    uint16_t vector = notification(&index);
    const uint32_t near[] = {vector & 0xFFu, vector, (vector & 0xFFu) ^ 1, 0, 255};
    uint32_t with = near[digit(&index, 5)];
    busy_guest(t, choices(&index, EXTERNAL_CONTROLS));
    struct gg_record record = trial_record(t);
    record.notification_vector = vector;
    record.recognised = random_one_in(r, 2);
    trial_set_record(t, &record);
    posting_descriptor(r, t);
    trial_set_external(t, with);
}

void posting_entry(struct random *r, uint64_t index, struct trial *t)
{
    static const uint32_t thresholds[] = {0, 5, 16};
    uint16_t vector = notification(&index);
    uint32_t varied = GG_VIRTUALIZE_APIC_ACCESSES | GG_VIRTUAL_INTERRUPT_DELIVERY | CONTROLS_POSTING;
    uint32_t controls = GG_USE_TPR_SHADOW | GG_EXTERNAL_INTERRUPT_EXITING | choices(&index, varied);
    busy_guest(t, GG_CR8_STORE_EXITING);
    struct gg_record record = trial_record(t);
    record.mode = GG_ROOT;
    record.notification_vector = generate_notification(r);
    trial_set_record(t, &record);
    struct gg_event event = gg_entry_notified(controls, thresholds[digit(&index, 3)], NULL, vector);
    trial_set_event(t, &event);
}
