/* Random states, events and damage. */
#ifndef GENERATE_H
#define GENERATE_H

#include "random.h"
#include "trial.h"

/* The control settings that document 01 names: V, M adds control 1, R adds control 3; posting has its two. */
#define CONTROLS_V \
    (GG_USE_TPR_SHADOW | GG_VIRTUAL_INTERRUPT_DELIVERY | GG_EXTERNAL_INTERRUPT_EXITING)
#define CONTROLS_M (CONTROLS_V | GG_VIRTUALIZE_APIC_ACCESSES)
#define CONTROLS_R (CONTROLS_M | GG_APIC_REGISTER_VIRTUALIZATION)
#define CONTROLS_X2 (CONTROLS_V | GG_VIRTUALIZE_X2APIC_MODE)
#define CONTROLS_POSTING (GG_PROCESS_POSTED_INTERRUPTS | GG_ACKNOWLEDGE_INTERRUPT_ON_EXIT)

/* A value of VICR_LO that asks for a self-IPI. */
enum { SELF_IPI = 0x40000 };

/* Page lengths to hand over: the right one, then wrong ones. */
enum { PAGE_LENGTHS = 6 };
extern const uint16_t page_lengths[PAGE_LENGTHS];

/* Gives the page a wrong length. */
void generate_page_length(struct random *r, struct trial *t);

/* An arbitrary record and page, reachable or not. */
void generate_state(struct random *r, struct trial *t);

/* Four words of EOI-exit bits: none, a few, or all kinds. */
void generate_exits(struct random *r, uint64_t exits[4]);

/* A notification vector: most are vectors, some have more than eight bits. */
uint16_t generate_notification(struct random *r);

/* Random bytes, in whole words of eight. */
void generate_bytes(struct random *r, uint8_t *to, size_t count);

/* An event of a kind with every field in bounds, near the edges of the rules. */
struct gg_event generate_event(struct random *r, unsigned kind);

/* A single event, external interrupt or leave from an arbitrary state. */
void generate_single(struct random *r, struct trial *t);

/* The same with one to three things damaged, now and then with null pointers. */
void generate_junk(struct random *r, struct trial *t);

#endif
