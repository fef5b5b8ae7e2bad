/* Where gg_boundary_matters says 0 a boundary does nothing; where it says 1 it exits or delivers. */
#include "matters.h"

#include "generate.h"
#include "show.h"

#include <stdio.h>

enum { FAMILY = 1002, FLAGS = 8, ACTIVITIES = 4, RECOGNISED = 2 };

/* Whether a program's step is what the header's word lets a caller expect. */
static bool as_told(const struct side *side, const struct trial *before, int matters)
{
    const struct gg_answer quiet = {GG_QUIET, 0, 0}, window = {GG_VM_EXIT, GG_EXIT_INTERRUPT_WINDOW, 0};
    if (matters)
        return side->answer.number == GG_DELIVERED || answer_same(&side->answer, &window);
    return answer_same(&side->answer, &quiet) && trial_same(&side->trial, before);
}

/* A guest with these controls, on any page and with any RVI and SVI, before this boundary. */
static void make(struct random *r, struct trial *t, uint32_t controls, uint8_t recognised,
                 const struct gg_event *boundary)
{
    generate_state(r, t);
    struct gg_record record = trial_record(t);
    record.mode = GG_GUEST;
    record.recognised = recognised;
    record.flags = controls;
    trial_set_record(t, &record);
    trial_set_event(t, boundary);
}

static bool check(const struct trial *before, int matters)
{
    static struct pair pair;
    pair_run(&pair, before);
    if (as_told(&pair.model, before, matters) && as_told(&pair.second, before, matters))
        return true;
    printf("difference at a boundary: gg_boundary_matters says %d\n", matters);
    show_trial(before);
    show_answers(&pair);
    show_changes("model", before, &pair.model.trial);
    show_changes("second program", before, &pair.second.trial);
    return false;
}

unsigned matters_run(uint64_t seed)
{
    static struct trial t;
    unsigned counts[2] = {0, 0}, failed = 0, cases = FLAGS * ACTIVITIES * RECOGNISED * (GG_ALL_CONTROLS + 1);
    for (unsigned index = 0; index < cases && !failed; index++) {
        struct random r = random_for(seed, FAMILY, index);
        uint8_t flags = index % FLAGS, activity = index / FLAGS % ACTIVITIES;
        uint8_t recognised = index / (FLAGS * ACTIVITIES) % RECOGNISED;
        struct gg_event boundary = gg_boundary(flags, activity);
        make(&r, &t, index / (FLAGS * ACTIVITIES * RECOGNISED), recognised, &boundary);
        struct gg_record record = trial_record(&t);
        int matters = gg_boundary_matters(&record, flags, activity);
        counts[matters]++;
        failed += !check(&t, matters);
    }
    printf("matters: %u boundaries do something, %u do nothing, %u misjudged\n", counts[1], counts[0], failed);
    return failed;
}
