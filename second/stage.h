/* A stage on which a named case plays, with both programs held to its numbers. */
#ifndef STAGE_H
#define STAGE_H

#include "trial.h"

struct stage {
    const char *name;
    struct trial now;
    struct pair pair;
    unsigned failures;
};

/* Sets the stage: fresh, or in guest mode under some controls with zeros elsewhere. */
void stage_fresh(struct stage *s);
void stage_guest(struct stage *s, uint32_t controls);

/* Changes the state before a step. */
void stage_set_priority(struct stage *s, uint32_t vtpr, uint8_t svi);
void stage_set_threshold(struct stage *s, uint32_t threshold);
void stage_set_eoi_exit(struct stage *s, uint8_t vector);
void stage_set_reserved(struct stage *s, unsigned byte, uint8_t value);
void stage_set_requested(struct stage *s, uint8_t rvi, uint32_t vppr);
void stage_set_notification(struct stage *s, uint16_t vector);

/* Carries out an event, an external interrupt or a leave on both programs and hands their state on. */
void stage_step(struct stage *s, struct gg_event event);
void stage_external(struct stage *s, uint32_t vector);
void stage_leave(struct stage *s);

/* What both programs have to show after the last step. */
void expect_answer(struct stage *s, uint32_t number, uint64_t first, uint64_t second);
void expect_quiet(struct stage *s);
void expect_word(struct stage *s, uint32_t offset, uint32_t value);
void expect_rvi(struct stage *s, uint8_t rvi);
void expect_svi(struct stage *s, uint8_t svi);
void expect_recognised(struct stage *s, uint8_t recognised);
void expect_mode(struct stage *s, uint8_t mode);
void expect_true(struct stage *s, int truth, const char *what);

/* Asks both programs for a register's highest vector, which has to be this one, none, or refused. */
void expect_highest(struct stage *s, uint32_t base, uint8_t vector);
void expect_highest_none(struct stage *s, uint32_t base);
void expect_highest_refused(struct stage *s, uint32_t base, uint64_t refusal);

/* The page, the record or the descriptor has to be that of a state kept before. */
void expect_page(struct stage *s, const struct trial *kept);
void expect_record(struct stage *s, const struct trial *kept);
void expect_descriptor(struct stage *s, const struct trial *kept);

/* Refused by this number, with page, record and descriptor as they were. */
void expect_refused(struct stage *s, const struct trial *kept, uint64_t refusal);

#endif
