/* One step's input, and the two programs run on equal copies of it. */
#ifndef TRIAL_H
#define TRIAL_H

#include "garlandgrid.h"

#include <stdbool.h>

/* Guard bytes around a slice show a write outside it; the odd lead puts slices at odd addresses. */
enum { GUARD = 33, TAIL = 31, PAGE_ROOM = 8192, SMALL_ROOM = 64, DESCRIPTOR_ROOM = 128 };

/* What is asked of a program: the event, an external interrupt, a leave, the question for a highest vector. */
enum { TRIAL_STEP, TRIAL_EXTERNAL, TRIAL_LEAVE, TRIAL_HIGHEST };

/* Which of page, record, event and descriptor are null, as bits. */
enum { NULL_PAGE = 1, NULL_RECORD = 2, NULL_EVENT = 4, NULL_DESCRIPTOR = 8, EVERY_NULL = 15 };

/* What a trial counts as: its event's kind, a kind that is none, or one of the calls that have no event. */
enum { KIND_UNKNOWN = 0, KIND_LEAVE = GG_REQUEST + 1, KIND_EXTERNAL, KIND_HIGHEST, KINDS };

/* What trial_highest says of an empty register. */
enum { TRIAL_NONE = -1 };

/* Page, record, event and descriptor bytes with the lengths that are handed over; the page stands last. */
struct trial {
    uint64_t operation, nulls;
    uint64_t base;   /* of the register that a question is about */
    uint64_t vector; /* of an external interrupt */
    size_t page_len, record_len, event_len, descriptor_len;
    uint8_t record_bytes[GUARD + SMALL_ROOM + TAIL];
    uint8_t event_bytes[GUARD + SMALL_ROOM + TAIL];
    uint8_t descriptor_bytes[GUARD + DESCRIPTOR_ROOM + TAIL];
    uint8_t page_bytes[GUARD + PAGE_ROOM + TAIL];
};

/* One program's copy after the step, with its answer. */
struct side {
    struct trial trial;
    struct gg_answer answer;
};

struct pair {
    struct side model, second;
};

/* A program behind the bytes. */
struct program {
    uint32_t (*step)(uint8_t *page, size_t page_len, uint8_t *record, size_t record_len,
                     const uint8_t *event, size_t event_len, uint64_t *first, uint64_t *second);
    uint32_t (*external_interrupt)(uint8_t *page, size_t page_len, uint8_t *record, size_t record_len,
                                   uint8_t *descriptor, size_t descriptor_len, uint32_t vector,
                                   uint64_t *first, uint64_t *second);
    uint32_t (*leave)(uint8_t *record, size_t record_len, uint64_t *first, uint64_t *second);
    uint32_t (*highest)(const uint8_t *page, size_t page_len, uint32_t base, uint64_t *first, uint64_t *second);
    uint32_t (*fresh)(uint8_t *record, size_t record_len);
};

extern const struct program the_model, the_second;

static inline uint8_t *trial_page(struct trial *t)
{
    return t->page_bytes + GUARD;
}

static inline const uint8_t *trial_page_of(const struct trial *t)
{
    return t->page_bytes + GUARD;
}

static inline uint8_t *trial_descriptor(struct trial *t)
{
    return t->descriptor_bytes + GUARD;
}

static inline const uint8_t *trial_descriptor_of(const struct trial *t)
{
    return t->descriptor_bytes + GUARD;
}

/* Fresh: lengths as they should be, a zero page, a zero record, no event, a zero descriptor. */
void trial_fresh(struct trial *t);

/* Gives the page another length; bytes past the usual ones are guard bytes. */
void trial_set_page_length(struct trial *t, size_t page_len);

/* Makes some of page, record, event and descriptor null, with length 0. */
void trial_set_nulls(struct trial *t, unsigned nulls);

/* Makes a trial an external interrupt with a vector. */
void trial_set_external(struct trial *t, uint32_t vector);

/* Makes a trial the question for the highest vector of the register at a base. */
void trial_set_question(struct trial *t, uint32_t base);

/* KIND_UNKNOWN, GG_ENTRY to GG_REQUEST, KIND_LEAVE, KIND_EXTERNAL or KIND_HIGHEST. */
unsigned trial_kind(const struct trial *t);

/* The bytes of page_bytes that are in use, guards included. */
size_t trial_page_used(const struct trial *t);

/* Copies and compares what is in use, which leaves half of the room alone for most pages. */
void trial_copy(struct trial *to, const struct trial *from);
bool trial_same(const struct trial *left, const struct trial *right);

struct gg_record trial_record(const struct trial *t);
struct gg_event trial_event(const struct trial *t);
void trial_set_record(struct trial *t, const struct gg_record *record);
void trial_set_event(struct trial *t, const struct gg_event *event);

/* Sets or clears a vector in VISR or VIRR. */
void trial_put_vector(struct trial *t, uint32_t base, uint32_t vector, bool value);
void trial_put_word(struct trial *t, uint32_t offset, uint32_t value);

/* Whether a vector is posted in the descriptor. */
bool trial_is_posted(const struct trial *t, uint32_t vector);

/* The number of vectors set in VISR or VIRR, and the highest of them or TRIAL_NONE. */
unsigned trial_count(const struct trial *t, uint32_t base);
int trial_highest(const struct trial *t, uint32_t base);

/* Runs both programs on copies of a trial. */
void pair_run(struct pair *pair, const struct trial *before);

bool answer_same(const struct gg_answer *left, const struct gg_answer *right);

/* Whether answer, record, page, event, descriptor and guard bytes agree. */
bool pair_same(const struct pair *pair);

#endif
