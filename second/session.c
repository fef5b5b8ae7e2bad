/* Sessions: events chosen by the state reached, so that interrupts nest deeply. */
#include "session.h"

#include "generate.h"
#include "posting.h"
#include "question.h"

#include <string.h>

/* A session climbs for this many steps, then falls for as many. */
enum { PHASE = 64 };

/*
 * One step in so many is a leave or an external interrupt, which root mode refuses, or the question, which
 * changes nothing.
 */
enum { LEAVES = 24, EXTERNALS = 12, QUESTIONS = 16 };

void session_start(struct session *s, uint64_t number)
{
    trial_fresh(&s->now);
    s->audit.depth = 0;
    s->number = number;
    s->step = 0;
}

bool session_is_wild(const struct session *s)
{
    return s->number % 4 == 3;
}

static struct gg_event choose_entry(struct random *r, const struct session *s)
{
    static const uint32_t usual[] = {CONTROLS_M, CONTROLS_R, CONTROLS_X2,
                                     CONTROLS_X2 | GG_APIC_REGISTER_VIRTUALIZATION};
    uint64_t exits[4] = {0, 0, 0, 0};
    uint32_t controls = random_one_in(r, 32) ? CONTROLS_V : usual[random_below(r, 4)];
    if (random_one_in(r, 16))
        controls |= GG_INTERRUPT_WINDOW_EXITING;
    if (random_one_in(r, 16))
        controls |= GG_CR8_LOAD_EXITING;
    if (random_one_in(r, 16))
        controls |= GG_CR8_STORE_EXITING;
    if (random_one_in(r, 32))
        controls &= ~GG_EXTERNAL_INTERRUPT_EXITING;
    if (!random_one_in(r, 4))
        controls |= CONTROLS_POSTING;
    if (random_one_in(r, 32))
        controls &= ~GG_ACKNOWLEDGE_INTERRUPT_ON_EXIT;
    if (s->number % 2)
        generate_exits(r, exits);
    uint32_t threshold = random_below(r, 18);
    return gg_entry_notified(controls, threshold, exits, generate_notification(r));
}

static struct gg_event choose_in_root(struct random *r, const struct session *s)
{
    if (random_one_in(r, 3))
        return gg_request(random_below(r, 256));
    return choose_entry(r, s);
}

static struct gg_event write_register(const struct gg_record *record, uint32_t offset, uint32_t msr,
                                      uint32_t value, uint32_t command)
{
    if (record->flags & GG_VIRTUALIZE_X2APIC_MODE)
        return gg_wrmsr(msr, value);
    return gg_memory_write(offset, 4, value | command, 0);
}

static struct gg_event retire(const struct gg_record *record)
{
    return write_register(record, GG_VEOI, 0x80B, 0, 0);
}

/* One step towards one more vector in service. */
static struct gg_event climb(struct random *r, const struct trial *t)
{
    struct gg_record record = trial_record(t);
    uint32_t priority = gg_word(trial_page_of(t), GG_VPPR) >> 4 & 15;
    if (record.recognised || (record.flags & GG_INTERRUPT_WINDOW_EXITING))
        return gg_boundary(GG_IF, (uint8_t)random_below(r, 2));
    if (priority > record.svi / 16u)
        return write_register(&record, GG_VTPR, 0x808, 0, 0);
    if (priority == 15)
        return retire(&record);
    uint32_t vector = 16 * (priority + 1) + random_below(r, 16);
    return write_register(&record, GG_VICR_LO, 0x83F, vector, SELF_IPI);
}

static struct gg_event fall(struct random *r, const struct trial *t)
{
    struct gg_record record = trial_record(t);
    if (random_one_in(r, 4))
        return gg_boundary(GG_IF, GG_ACTIVE);
    return retire(&record);
}

static struct gg_event choose_in_guest(struct random *r, const struct session *s)
{
    if (random_one_in(r, 8))
        return generate_event(r, GG_MEMORY_READ + random_below(r, GG_BOUNDARY - GG_MEMORY_READ + 1));
    return s->step / PHASE % 2 == 0 ? climb(r, &s->now) : fall(r, &s->now);
}

static struct gg_event choose_wild(struct random *r, const struct session *s)
{
    bool root = trial_record(&s->now).mode == GG_ROOT;
    if (root)
        return generate_event(r, random_one_in(r, 3) ? GG_REQUEST : GG_ENTRY);
    return generate_event(r, GG_MEMORY_READ + random_below(r, GG_BOUNDARY - GG_MEMORY_READ + 1));
}

/* Posts a few vectors, mostly of classes up to the next above VPPR's, so that nesting stays deep. */
static void post_some(struct random *r, struct trial *t)
{
    uint32_t above = (gg_word(trial_page_of(t), GG_VPPR) >> 4 & 15) + 2;
    uint32_t bound = above > 16 || random_one_in(r, 8) ? 256 : 16 * above;
    for (uint32_t left = random_below(r, 4); left > 0; left--)
        gg_post(trial_descriptor(t), (uint8_t)random_below(r, bound));
}

/* An external interrupt; what is posted and not yet processed stays in the descriptor from step to step. */
static void choose_external(struct random *r, struct session *s)
{
    if (session_is_wild(s))
        posting_descriptor(r, &s->now);
    else
        post_some(r, &s->now);
    trial_set_external(&s->now, posting_vector_for(r, &s->now));
    if (random_one_in(r, 32))
        posting_length(r, &s->now);
}

/* Makes a few steps refused: a short page, an unknown kind, the other mode's event. */
static void spoil(struct random *r, struct session *s, struct gg_event *event)
{
    switch (random_below(r, 3)) {
    case 0:
        s->now.page_len = GG_PAGE_LENGTH - 1;
        break;
    case 1:
        event->kind = (uint8_t)(GG_REQUEST + 1 + random_below(r, 100));
        break;
    default:
        *event = trial_record(&s->now).mode == GG_ROOT ? generate_event(r, GG_BOUNDARY) : choose_entry(r, s);
    }
}

void session_choose(struct random *r, struct session *s)
{
    struct gg_event event;
    s->now.page_len = GG_PAGE_LENGTH;
    s->now.descriptor_len = GG_DESCRIPTOR_LENGTH;
    if (session_is_wild(s))
        event = choose_wild(r, s);
    else if (trial_record(&s->now).mode == GG_ROOT)
        event = choose_in_root(r, s);
    else
        event = choose_in_guest(r, s);
    if (random_one_in(r, 32))
        spoil(r, s, &event);
    trial_set_event(&s->now, &event);
    s->now.operation = random_one_in(r, LEAVES) ? TRIAL_LEAVE : TRIAL_STEP;
    if (random_one_in(r, EXTERNALS))
        choose_external(r, s);
    if (random_one_in(r, QUESTIONS))
        trial_set_question(&s->now, question_register(r));
}

const char *session_advance(struct session *s, const struct side *side)
{
    const char *broken = session_is_wild(s) ? NULL : audit_step(&s->audit, &s->now, side);
    trial_copy(&s->now, &side->trial);
    s->step++;
    return broken;
}
