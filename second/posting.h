/* External interrupts and the descriptors that come with them: random ones and sweeps. */
#ifndef POSTING_H
#define POSTING_H

#include "generate.h"

/* Descriptor lengths to hand over: the right one, then wrong ones. */
enum { DESCRIPTOR_LENGTHS = 5 };
extern const uint8_t descriptor_lengths[DESCRIPTOR_LENGTHS];

/* Gives the descriptor a wrong length. */
void posting_length(struct random *r, struct trial *t);

/* Fills the descriptor: requests of any density, the outstanding bit, the bytes that stay. */
void posting_descriptor(struct random *r, struct trial *t);

/* A vector to interrupt with: the notification vector's low byte, or now and then any. */
uint32_t posting_vector_for(struct random *r, const struct trial *t);

/* Makes a trial an external interrupt with any descriptor, now and then one to refuse. */
void posting_set(struct random *r, struct trial *t);

/* An external interrupt in an arbitrary state, mostly in guest mode. */
void posting_any(struct random *r, struct trial *t);

/* The notification vectors of the sweeps: 0 to 256, and FFFFH. */
enum { NOTIFICATIONS = 258 };

/* The number of cases of each sweep below. */
enum {
    POSTING_ALONE = 257 * 4 * 3 * 4,
    POSTING_PAIRS = 32 * 32 * 8,
    POSTING_NOTIFICATIONS = NOTIFICATIONS * 5 * 16,
    POSTING_ENTRIES = NOTIFICATIONS * 16 * 3
};

/* Every vector posted alone, and none, over requests and priorities of several kinds. */
void posting_alone(struct random *r, uint64_t index, struct trial *t);

/* A vector posted in every two bytes of the requests. */
void posting_pair(struct random *r, uint64_t index, struct trial *t);

/* Every notification vector against vectors near it, by the controls that decide. */
void posting_notification(struct random *r, uint64_t index, struct trial *t);

/* Every notification vector at an entry, by the controls of check 5 and by thresholds of checks 4 and 6. */
void posting_entry(struct random *r, uint64_t index, struct trial *t);

#endif
