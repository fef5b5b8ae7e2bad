/* The stage of the named cases: steps on both programs, and what they have to show. */
#include "stage.h"

#include "show.h"

#include <inttypes.h>
#include <stdio.h>
#include <string.h>

void stage_fresh(struct stage *s)
{
    trial_fresh(&s->now);
}

void stage_guest(struct stage *s, uint32_t controls)
{
    trial_fresh(&s->now);
    struct gg_record record = trial_record(&s->now);
    record.mode = GG_GUEST;
    record.flags = controls;
    trial_set_record(&s->now, &record);
}

void stage_set_priority(struct stage *s, uint32_t vtpr, uint8_t svi)
{
    struct gg_record record = trial_record(&s->now);
    record.svi = svi;
    trial_set_record(&s->now, &record);
    trial_put_word(&s->now, GG_VTPR, vtpr);
}

void stage_set_threshold(struct stage *s, uint32_t threshold)
{
    struct gg_record record = trial_record(&s->now);
    record.threshold = threshold;
    trial_set_record(&s->now, &record);
}

void stage_set_eoi_exit(struct stage *s, uint8_t vector)
{
    struct gg_record record = trial_record(&s->now);
    record.eoi_exit[vector / 64] |= UINT64_C(1) << vector % 64;
    trial_set_record(&s->now, &record);
}

void stage_set_reserved(struct stage *s, unsigned byte, uint8_t value)
{
    struct gg_record record = trial_record(&s->now);
    record.reserved_zero[byte] = value;
    trial_set_record(&s->now, &record);
}

void stage_set_requested(struct stage *s, uint8_t rvi, uint32_t vppr)
{
    struct gg_record record = trial_record(&s->now);
    record.rvi = rvi;
    trial_set_record(&s->now, &record);
    trial_put_word(&s->now, GG_VPPR, vppr);
}

void stage_set_notification(struct stage *s, uint16_t vector)
{
    struct gg_record record = trial_record(&s->now);
    record.notification_vector = vector;
    trial_set_record(&s->now, &record);
}

static void fail(struct stage *s, const char *who, const char *what, uint64_t got, uint64_t wanted)
{
    printf("  %s: %s: %s is %" PRIX64 "H and has to be %" PRIX64 "H\n", s->name, who, what, got, wanted);
    s->failures++;
}

static void play(struct stage *s)
{
    pair_run(&s->pair, &s->now);
    if (!pair_same(&s->pair)) {
        printf("  %s: model and second program differ\n", s->name);
        show_answers(&s->pair);
        show_differences(&s->pair);
        s->failures++;
    }
    trial_copy(&s->now, &s->pair.model.trial);
}

void stage_step(struct stage *s, struct gg_event event)
{
    trial_set_event(&s->now, &event);
    s->now.operation = TRIAL_STEP;
    play(s);
}

void stage_external(struct stage *s, uint32_t vector)
{
    trial_set_external(&s->now, vector);
    play(s);
}

void stage_leave(struct stage *s)
{
    s->now.operation = TRIAL_LEAVE;
    play(s);
}

/* Holds one number of each program to the expected one. */
static void both(struct stage *s, const char *what, uint64_t model, uint64_t second, uint64_t wanted)
{
    if (model != wanted)
        fail(s, "model", what, model, wanted);
    if (second != wanted)
        fail(s, "second program", what, second, wanted);
}

void expect_answer(struct stage *s, uint32_t number, uint64_t first, uint64_t second)
{
    const struct gg_answer *model = &s->pair.model.answer, *other = &s->pair.second.answer;
    both(s, "the answer", model->number, other->number, number);
    both(s, "the first number", model->first, other->first, first);
    both(s, "the second number", model->second, other->second, second);
}

void expect_quiet(struct stage *s)
{
    expect_answer(s, GG_QUIET, 0, 0);
}

/* Asks a question whose answer is given; it leaves page and record. */
static void expect_asked(struct stage *s, uint32_t base, uint32_t number, uint64_t first)
{
    struct trial kept = s->now;
    trial_set_question(&s->now, base);
    play(s);
    expect_answer(s, number, first, 0);
    expect_page(s, &kept);
    expect_record(s, &kept);
}

void expect_highest(struct stage *s, uint32_t base, uint8_t vector)
{
    expect_asked(s, base, GG_HIGHEST_VECTOR, vector);
}

void expect_highest_none(struct stage *s, uint32_t base)
{
    expect_asked(s, base, GG_HIGHEST_NONE, 0);
}

void expect_highest_refused(struct stage *s, uint32_t base, uint64_t refusal)
{
    expect_asked(s, base, GG_HIGHEST_REFUSED, refusal);
}

void expect_word(struct stage *s, uint32_t offset, uint32_t value)
{
    char what[32];
    snprintf(what, sizeof what, "word %03" PRIX32, offset);
    both(s, what, gg_word(trial_page_of(&s->pair.model.trial), offset),
         gg_word(trial_page_of(&s->pair.second.trial), offset), value);
}

void expect_rvi(struct stage *s, uint8_t rvi)
{
    both(s, "RVI", trial_record(&s->pair.model.trial).rvi, trial_record(&s->pair.second.trial).rvi, rvi);
}

void expect_svi(struct stage *s, uint8_t svi)
{
    both(s, "SVI", trial_record(&s->pair.model.trial).svi, trial_record(&s->pair.second.trial).svi, svi);
}

void expect_recognised(struct stage *s, uint8_t recognised)
{
    both(s, "recognised", trial_record(&s->pair.model.trial).recognised,
         trial_record(&s->pair.second.trial).recognised, recognised);
}

void expect_mode(struct stage *s, uint8_t mode)
{
    both(s, "mode", trial_record(&s->pair.model.trial).mode, trial_record(&s->pair.second.trial).mode, mode);
}

void expect_true(struct stage *s, int truth, const char *what)
{
    if (!truth)
        fail(s, "both", what, 0, 1);
}

void expect_page(struct stage *s, const struct trial *kept)
{
    size_t size = trial_page_used(kept);
    both(s, "the page unchanged", !memcmp(s->pair.model.trial.page_bytes, kept->page_bytes, size),
         !memcmp(s->pair.second.trial.page_bytes, kept->page_bytes, size), 1);
}

void expect_record(struct stage *s, const struct trial *kept)
{
    size_t size = sizeof kept->record_bytes;
    both(s, "the record as it should be", !memcmp(s->pair.model.trial.record_bytes, kept->record_bytes, size),
         !memcmp(s->pair.second.trial.record_bytes, kept->record_bytes, size), 1);
}

void expect_descriptor(struct stage *s, const struct trial *kept)
{
    size_t size = sizeof kept->descriptor_bytes;
    const struct trial *model = &s->pair.model.trial, *second = &s->pair.second.trial;
    both(s, "the descriptor as it should be", !memcmp(model->descriptor_bytes, kept->descriptor_bytes, size),
         !memcmp(second->descriptor_bytes, kept->descriptor_bytes, size), 1);
}

void expect_refused(struct stage *s, const struct trial *kept, uint64_t refusal)
{
    expect_answer(s, GG_REFUSED, refusal, 0);
    expect_record(s, kept);
    expect_page(s, kept);
    expect_descriptor(s, kept);
}
