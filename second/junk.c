/* Damage: wrong lengths, broken records, fields out of bounds, null pointers. */
#include "generate.h"

#include "posting.h"

#include <string.h>

const uint16_t page_lengths[PAGE_LENGTHS] = {GG_PAGE_LENGTH, 0, 1, 4095, 4097, PAGE_ROOM};

void generate_page_length(struct random *r, struct trial *t)
{
    trial_set_page_length(t, page_lengths[1 + random_below(r, PAGE_LENGTHS - 1)]);
}

static uint8_t wrong_small_length(struct random *r)
{
    static const uint8_t lengths[] = {0, 1, 47, 49, 64};
    return lengths[random_below(r, 5)];
}

static void damage_record_length(struct random *r, struct trial *t)
{
    t->record_len = wrong_small_length(r);
}

static void damage_event_length(struct random *r, struct trial *t)
{
    t->event_len = wrong_small_length(r);
}

static void damage_mode(struct random *r, struct trial *t)
{
    t->record_bytes[GUARD] = (uint8_t)(2 + random_below(r, 254));
}

static void damage_recognised(struct random *r, struct trial *t)
{
    t->record_bytes[GUARD + offsetof(struct gg_record, recognised)] = (uint8_t)(2 + random_below(r, 254));
}

static void damage_record_flags(struct random *r, struct trial *t)
{
    struct gg_record record = trial_record(t);
    record.flags |= UINT32_C(1) << (11 + random_below(r, 21));
    trial_set_record(t, &record);
}

static void damage_record_reserved(struct random *r, struct trial *t)
{
    struct gg_record record = trial_record(t);
    uint32_t byte = random_below(r, 2);
    record.reserved_zero[byte] ^= (uint8_t)(1u << random_below(r, 8));
    trial_set_record(t, &record);
}

static void damage_any_record_byte(struct random *r, struct trial *t)
{
    uint32_t at = random_below(r, GG_RECORD_LENGTH);
    t->record_bytes[GUARD + at] = (uint8_t)random_next(r);
}

static void damage_kind(struct random *r, struct trial *t)
{
    struct gg_event event = trial_event(t);
    event.kind = (uint8_t)(random_one_in(r, 2) ? 0 : 10 + random_below(r, 246));
    trial_set_event(t, &event);
}

static void damage_size(struct random *r, struct trial *t)
{
    struct gg_event event = trial_event(t);
    event.size = (uint8_t)(random_one_in(r, 2) ? random_below(r, 18) : random_below(r, 256));
    trial_set_event(t, &event);
}

static void damage_event_flags(struct random *r, struct trial *t)
{
    struct gg_event event = trial_event(t);
    event.flags ^= (uint8_t)(1u << random_below(r, 8));
    trial_set_event(t, &event);
}

static void damage_detail(struct random *r, struct trial *t)
{
    struct gg_event event = trial_event(t);
    event.detail = (uint8_t)(random_one_in(r, 2) ? 3 + random_below(r, 15) : random_below(r, 256));
    trial_set_event(t, &event);
}

static void damage_number(struct random *r, struct trial *t)
{
    static const uint32_t edges[] = {255, 256, 4095, 4096, 0x80000000, 0xFFFFFFFF};
    struct gg_event event = trial_event(t);
    event.number = random_one_in(r, 2) ? edges[random_below(r, 6)] : (uint32_t)random_next(r);
    trial_set_event(t, &event);
}

static void damage_value(struct random *r, struct trial *t)
{
    struct gg_event event = trial_event(t);
    uint64_t edge = UINT64_C(1) << random_below(r, 64);
    event.value = random_one_in(r, 2) ? edge - random_below(r, 2) : event.value ^ edge;
    trial_set_event(t, &event);
}

/* In an entry these bits are the notification vector and reserved ones, elsewhere the value's upper half. */
static void damage_upper_half(struct random *r, struct trial *t)
{
    struct gg_event event = trial_event(t);
    event.value ^= UINT64_C(1) << (32 + random_below(r, 32));
    trial_set_event(t, &event);
}

static void damage_every_byte(struct random *r, struct trial *t)
{
    for (size_t at = 0; at < GG_EVENT_LENGTH; at++)
        t->event_bytes[GUARD + at] = (uint8_t)random_next(r);
}

static void damage_notification(struct random *r, struct trial *t)
{
    struct gg_record record = trial_record(t);
    record.notification_vector ^= (uint16_t)(1u << random_below(r, 16));
    trial_set_record(t, &record);
}

/* An external interrupt's vector; nothing else looks at it. */
static void damage_vector(struct random *r, struct trial *t)
{
    t->vector ^= UINT32_C(1) << random_below(r, 32);
}

static void damage_mode_of_event(struct random *r, struct trial *t)
{
    t->record_bytes[GUARD] = (uint8_t)random_below(r, 2);
}

typedef void damage_function(struct random *r, struct trial *t);

static damage_function *const damages[] = {
    generate_page_length,   damage_record_length, damage_event_length,  damage_mode,
    damage_recognised,      damage_record_flags,  damage_kind,          damage_size,
    damage_event_flags,     damage_detail,        damage_number,        damage_value,
    damage_any_record_byte, damage_every_byte,    damage_mode_of_event, damage_record_reserved,
    damage_upper_half,      damage_notification,  damage_vector,        posting_length,
};

enum { DAMAGES = sizeof damages / sizeof damages[0] };

/* Null pointers come last, since a null pointer has length 0. */
void generate_junk(struct random *r, struct trial *t)
{
    generate_single(r, t);
    for (uint32_t left = 1 + random_below(r, 3); left > 0; left--)
        damages[random_below(r, DAMAGES)](r, t);
    for (size_t at = GG_PAGE_LENGTH; at < t->page_len; at++)
        trial_page(t)[at] = (uint8_t)random_next(r);
    if (random_one_in(r, 16))
        trial_set_nulls(t, 1 + random_below(r, EVERY_NULL));
}
