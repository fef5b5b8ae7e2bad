/* The second program behind the same bytes as the model. */
#ifndef EDGE_H
#define EDGE_H

#include "oracle.h"

/* Reads a record or an event from its bytes; another length gives one that is always refused. */
struct cpu edge_cpu(const uint8_t *record, size_t record_len);
struct happening edge_happening(const uint8_t *event, size_t event_len);

/* Same contract as gg_step. */
uint32_t second_step(uint8_t *page, size_t page_len, uint8_t *record, size_t record_len,
                     const uint8_t *event, size_t event_len, uint64_t *first, uint64_t *second);

/* Same contract as gg_external_interrupt. */
uint32_t second_external_interrupt(uint8_t *page, size_t page_len, uint8_t *record, size_t record_len,
                                   uint8_t *descriptor, size_t descriptor_len, uint32_t vector,
                                   uint64_t *first, uint64_t *second);

/* Same contract as gg_leave. */
uint32_t second_leave(uint8_t *record, size_t record_len, uint64_t *first, uint64_t *second);

/* Same contract as gg_highest. */
uint32_t second_highest(const uint8_t *page, size_t page_len, uint32_t base, uint64_t *first, uint64_t *second);

/* Same contract as gg_fresh. */
uint32_t second_fresh(uint8_t *record, size_t record_len);

#endif
