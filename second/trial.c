/* Trials: building them, and running both programs on one. */
#include "trial.h"

#include "edge.h"

#include <string.h>

enum { GUARD_BYTE = 0xA5 };

/* What an answer's numbers hold before a step, so that one left unwritten shows. */
static const uint64_t UNWRITTEN = UINT64_C(0xA5A5A5A5A5A5A5A5);

void trial_fresh(struct trial *t)
{
    memset(t, GUARD_BYTE, offsetof(struct trial, page_bytes));
    memset(t->page_bytes, GUARD_BYTE, GUARD);
    memset(t->page_bytes + GUARD, 0, GG_PAGE_LENGTH);
    memset(t->page_bytes + GUARD + GG_PAGE_LENGTH, GUARD_BYTE, TAIL);
    memset(t->record_bytes + GUARD, 0, GG_RECORD_LENGTH);
    memset(t->event_bytes + GUARD, 0, GG_EVENT_LENGTH);
    memset(t->descriptor_bytes + GUARD, 0, GG_DESCRIPTOR_LENGTH);
    t->operation = TRIAL_STEP;
    t->nulls = 0;
    t->base = 0;
    t->vector = 0;
    t->page_len = GG_PAGE_LENGTH;
    t->record_len = GG_RECORD_LENGTH;
    t->event_len = GG_EVENT_LENGTH;
    t->descriptor_len = GG_DESCRIPTOR_LENGTH;
}

void trial_set_page_length(struct trial *t, size_t page_len)
{
    t->page_len = page_len;
    if (page_len > GG_PAGE_LENGTH)
        memset(t->page_bytes + GUARD + GG_PAGE_LENGTH, GUARD_BYTE, PAGE_ROOM - GG_PAGE_LENGTH + TAIL);
}

void trial_set_nulls(struct trial *t, unsigned nulls)
{
    t->nulls = nulls;
    if (nulls & NULL_PAGE)
        t->page_len = 0;
    if (nulls & NULL_RECORD)
        t->record_len = 0;
    if (nulls & NULL_EVENT)
        t->event_len = 0;
    if (nulls & NULL_DESCRIPTOR)
        t->descriptor_len = 0;
}

void trial_set_external(struct trial *t, uint32_t vector)
{
    t->operation = TRIAL_EXTERNAL;
    t->vector = vector;
}

void trial_set_question(struct trial *t, uint32_t base)
{
    t->operation = TRIAL_HIGHEST;
    t->base = base;
}

unsigned trial_kind(const struct trial *t)
{
    uint8_t kind = t->event_bytes[GUARD];
    if (t->operation == TRIAL_EXTERNAL)
        return KIND_EXTERNAL;
    if (t->operation == TRIAL_LEAVE)
        return KIND_LEAVE;
    if (t->operation == TRIAL_HIGHEST)
        return KIND_HIGHEST;
    return kind <= GG_REQUEST ? kind : KIND_UNKNOWN;
}

size_t trial_page_used(const struct trial *t)
{
    return GUARD + (t->page_len > GG_PAGE_LENGTH ? PAGE_ROOM : GG_PAGE_LENGTH) + TAIL;
}

static size_t used(const struct trial *t)
{
    return offsetof(struct trial, page_bytes) + trial_page_used(t);
}

void trial_copy(struct trial *to, const struct trial *from)
{
    memcpy(to, from, used(from));
}

/* The bits in which the words at two places differ. */
static uint64_t unequal_at(const unsigned char *left, const unsigned char *right)
{
    uint64_t one, other;
    memcpy(&one, left, sizeof one);
    memcpy(&other, right, sizeof other);
    return one ^ other;
}

enum { FOUR_WORDS = 32 };

/* Compares by whole words, four at once, which an emulator runs faster than the library does. */
bool trial_same(const struct trial *left, const struct trial *right)
{
    const unsigned char *a = (const unsigned char *)left, *b = (const unsigned char *)right;
    uint64_t unequal = 0;
    for (size_t rest = used(left); rest > 0; rest -= FOUR_WORDS) {
        unequal |= unequal_at(a, b) | unequal_at(a + 8, b + 8);
        unequal |= unequal_at(a + 16, b + 16) | unequal_at(a + 24, b + 24);
        a += FOUR_WORDS;
        b += FOUR_WORDS;
    }
    return unequal == 0;
}

_Static_assert(offsetof(struct trial, page_bytes) % FOUR_WORDS == 0 &&
                   (GUARD + GG_PAGE_LENGTH + TAIL) % FOUR_WORDS == 0 &&
                   (GUARD + PAGE_ROOM + TAIL) % FOUR_WORDS == 0,
               "what is in use of a trial is a whole number of four words");

struct gg_record trial_record(const struct trial *t)
{
    struct gg_record record;
    memcpy(&record, t->record_bytes + GUARD, sizeof record);
    return record;
}

struct gg_event trial_event(const struct trial *t)
{
    struct gg_event event;
    memcpy(&event, t->event_bytes + GUARD, sizeof event);
    return event;
}

void trial_set_record(struct trial *t, const struct gg_record *record)
{
    memcpy(t->record_bytes + GUARD, record, sizeof *record);
}

void trial_set_event(struct trial *t, const struct gg_event *event)
{
    memcpy(t->event_bytes + GUARD, event, sizeof *event);
}

void trial_put_vector(struct trial *t, uint32_t base, uint32_t vector, bool value)
{
    uint32_t at = base + 16 * (vector / 32);
    uint32_t bit = UINT32_C(1) << vector % 32, word = gg_word(trial_page(t), at);
    trial_put_word(t, at, value ? word | bit : word & ~bit);
}

void trial_put_word(struct trial *t, uint32_t offset, uint32_t value)
{
    memcpy(trial_page(t) + offset, &value, sizeof value);
}

bool trial_is_posted(const struct trial *t, uint32_t vector)
{
    return trial_descriptor_of(t)[vector / 8] >> vector % 8 & 1;
}

unsigned trial_count(const struct trial *t, uint32_t base)
{
    unsigned count = 0;
    for (uint32_t row = 0; row < 8; row++)
        for (uint32_t word = gg_word(trial_page_of(t), base + 16 * row); word; word &= word - 1)
            count++;
    return count;
}

int trial_highest(const struct trial *t, uint32_t base)
{
    for (int vector = 255; vector >= 0; vector--)
        if (gg_vector_is_set(trial_page_of(t), base, (uint8_t)vector))
            return vector;
    return TRIAL_NONE;
}

const struct program the_model = {gg_step, gg_external_interrupt, gg_leave, gg_highest, gg_fresh};
const struct program the_second = {second_step, second_external_interrupt, second_leave, second_highest,
                                   second_fresh};

static uint32_t interrupt(const struct program *program, struct trial *t, uint8_t *page, uint8_t *record,
                          struct gg_answer *answer)
{
    uint8_t *descriptor = t->nulls & NULL_DESCRIPTOR ? NULL : t->descriptor_bytes + GUARD;
    return program->external_interrupt(page, t->page_len, record, t->record_len, descriptor,
                                       t->descriptor_len, (uint32_t)t->vector, &answer->first,
                                       &answer->second);
}

static uint32_t ask(const struct program *program, struct trial *t, struct gg_answer *answer)
{
    uint8_t *page = t->nulls & NULL_PAGE ? NULL : t->page_bytes + GUARD;
    uint8_t *record = t->nulls & NULL_RECORD ? NULL : t->record_bytes + GUARD;
    const uint8_t *event = t->nulls & NULL_EVENT ? NULL : t->event_bytes + GUARD;
    if (t->operation == TRIAL_EXTERNAL)
        return interrupt(program, t, page, record, answer);
    if (t->operation == TRIAL_LEAVE)
        return program->leave(record, t->record_len, &answer->first, &answer->second);
    if (t->operation == TRIAL_HIGHEST)
        return program->highest(page, t->page_len, (uint32_t)t->base, &answer->first, &answer->second);
    return program->step(page, t->page_len, record, t->record_len, event, t->event_len, &answer->first,
                         &answer->second);
}

static void side_run(struct side *side, const struct trial *before, const struct program *program)
{
    trial_copy(&side->trial, before);
    side->answer.first = side->answer.second = UNWRITTEN;
    side->answer.number = ask(program, &side->trial, &side->answer);
}

void pair_run(struct pair *pair, const struct trial *before)
{
    side_run(&pair->model, before, &the_model);
    side_run(&pair->second, before, &the_second);
}

bool answer_same(const struct gg_answer *left, const struct gg_answer *right)
{
    return left->number == right->number && left->first == right->first && left->second == right->second;
}

bool pair_same(const struct pair *pair)
{
    return answer_same(&pair->model.answer, &pair->second.answer) &&
           trial_same(&pair->model.trial, &pair->second.trial);
}
