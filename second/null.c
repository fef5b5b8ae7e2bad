/* A null page, record, event or descriptor with length 0 is refused as any wrong length is. */
#include "null.h"

#include "generate.h"
#include "posting.h"
#include "question.h"
#include "show.h"

#include <stdio.h>

enum { FAMILY = 1001, STATES = 64 };

static unsigned calls, failed;

/* Whether a program refuses by this number and leaves every byte. */
static bool refuses(const struct side *side, const struct trial *before, uint64_t refusal)
{
    const struct gg_answer wanted = {GG_REFUSED, refusal, 0};
    return answer_same(&side->answer, &wanted) && trial_same(&side->trial, before);
}

static void check(const struct trial *before, uint64_t refusal)
{
    static struct pair pair;
    calls++;
    pair_run(&pair, before);
    if (refuses(&pair.model, before, refusal) && refuses(&pair.second, before, refusal))
        return;
    printf("difference at a null pointer: refusal %u is due\n", (unsigned)refusal);
    show_trial(before);
    show_answers(&pair);
    show_differences(&pair);
    failed++;
}

/* The pointers that a kind's call takes: a leave takes the record alone, the question the page alone. */
static unsigned taken(unsigned kind)
{
    if (kind == KIND_LEAVE)
        return NULL_RECORD;
    if (kind == KIND_EXTERNAL)
        return NULL_PAGE | NULL_RECORD | NULL_DESCRIPTOR;
    return kind == KIND_HIGHEST ? NULL_PAGE : NULL_PAGE | NULL_RECORD | NULL_EVENT;
}

/* The first refusal that a choice of null pointers asks for, in the order 1, 5, 2. */
static uint64_t due(unsigned handed)
{
    if (handed & NULL_PAGE)
        return GG_REFUSED_PAGE_LENGTH;
    return handed & NULL_DESCRIPTOR ? GG_REFUSED_DESCRIPTOR_LENGTH : GG_REFUSED_BOUNDS;
}

static void set_call(struct random *r, struct trial *t, unsigned kind)
{
    struct gg_event event = generate_event(r, kind);
    trial_set_event(t, &event);
    if (kind == KIND_LEAVE)
        t->operation = TRIAL_LEAVE;
    if (kind == KIND_EXTERNAL)
        trial_set_external(t, posting_vector_for(r, t));
    if (kind == KIND_HIGHEST)
        trial_set_question(t, random_one_in(r, 2) ? question_wrong_base(r) : question_register(r));
}

/* Every choice of null pointers, for one kind of event, or for one of the calls that have no event. */
static void each_choice(struct random *r, unsigned kind)
{
    static struct trial t;
    for (unsigned nulls = 1; nulls <= EVERY_NULL; nulls++) {
        generate_state(r, &t);
        set_call(r, &t, kind);
        trial_set_nulls(&t, nulls);
        unsigned handed = nulls & taken(kind);
        if (handed)
            check(&t, due(handed));
    }
}

static void fresh(const char *who, const struct program *program)
{
    calls++;
    uint32_t number = program->fresh(NULL, 0);
    if (number == GG_REFUSED)
        return;
    printf("difference at a null record: fresh of the %s answers %u\n", who, (unsigned)number);
    failed++;
}

unsigned null_run(uint64_t seed)
{
    calls = failed = 0;
    for (uint64_t state = 0; state < STATES && !failed; state++) {
        struct random r = random_for(seed, FAMILY, state);
        for (unsigned kind = GG_ENTRY; kind <= KIND_HIGHEST; kind++)
            each_choice(&r, kind);
    }
    fresh("model", &the_model);
    fresh("second program", &the_second);
    printf("null: %u calls with null pointers, %u failed\n", calls, failed);
    return failed;
}
