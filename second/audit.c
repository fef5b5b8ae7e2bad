/* Condition 3: what holds after any sequence of events that always enters with VID; postings are requests. */
#include "audit.h"

enum { DEEPEST = 15 };

/* The vector that RVI or SVI has to be; an empty register counts as 0. */
static uint8_t highest_vector(const struct trial *t, uint32_t base)
{
    int highest = trial_highest(t, base);
    return highest == TRIAL_NONE ? 0 : (uint8_t)highest;
}

/* Whether a step is a virtualised EOI; the event's bytes are never changed, so they stand in the trial. */
static bool retires(const struct trial *t, const struct gg_answer *answer)
{
    unsigned kind = trial_kind(t);
    uint32_t number = trial_event(t).number;
    bool place = (kind == GG_MEMORY_WRITE && number == GG_VEOI) || (kind == GG_WRMSR && number == 0x80B);
    bool exits = answer->number == GG_VM_EXIT && answer->first == GG_EXIT_VIRTUALIZED_EOI;
    return place && (answer->number == GG_QUIET || exits);
}

static const char *follow(struct audit *audit, const struct trial *t, const struct gg_answer *answer)
{
    if (retires(t, answer) && audit->depth > 0)
        audit->depth--;
    if (answer->number != GG_DELIVERED)
        return NULL;
    uint8_t vector = (uint8_t)answer->first;
    if (audit->depth > 0 && audit->stack[audit->depth - 1] / 16 >= vector / 16)
        return "the classes in service rise strictly in order of delivery";
    if (audit->depth == DEEPEST)
        return "never more than 15 vectors are in service";
    audit->stack[audit->depth++] = vector;
    return NULL;
}

static const char *service_bits(const struct audit *audit, const struct trial *t)
{
    bool same = trial_count(t, GG_VISR) == audit->depth;
    for (unsigned i = 0; i < audit->depth; i++)
        same = same && gg_vector_is_set(trial_page_of(t), GG_VISR, audit->stack[i]);
    return same ? NULL : "the service bits are the vectors delivered and not yet retired";
}

static const char *record_holds(const struct trial *t)
{
    struct gg_record record = trial_record(t);
    if (record.rvi != highest_vector(t, GG_VIRR))
        return "RVI is the highest request bit";
    if (record.svi != highest_vector(t, GG_VISR))
        return "SVI is the highest service bit";
    unsigned vppr_class = gg_word(trial_page_of(t), GG_VPPR) >> 4 & 15;
    bool due = !(record.flags & GG_INTERRUPT_WINDOW_EXITING) && record.rvi / 16u > vppr_class;
    if (record.mode == GG_GUEST && record.recognised != due)
        return "an interrupt is recognised exactly when RVI's class exceeds VPPR's";
    return NULL;
}

/* Posted vectors count as requests: once processed they are in VIRR, and none is left in the descriptor. */
static const char *posted_bits(const struct trial *before, const struct side *side)
{
    bool same = true;
    if (trial_kind(before) != KIND_EXTERNAL || side->answer.number != GG_QUIET)
        return NULL;
    for (unsigned vector = 0; vector < 256; vector++) {
        bool requested = gg_vector_is_set(trial_page_of(&side->trial), GG_VIRR, (uint8_t)vector);
        if (trial_is_posted(&side->trial, vector) || (trial_is_posted(before, vector) && !requested))
            same = false;
    }
    return same ? NULL : "the vectors posted become requests";
}

const char *audit_step(struct audit *audit, const struct trial *before, const struct side *side)
{
    const char *broken = follow(audit, &side->trial, &side->answer);
    if (!broken)
        broken = posted_bits(before, side);
    if (!broken)
        broken = service_bits(audit, &side->trial);
    return broken ? broken : record_holds(&side->trial);
}
