/* Turns bytes into the second program's own fields and back. */
#include "edge.h"

#include "faults.h"
#include "registers.h"

#include <string.h>

enum { LENGTH = 48, AT_THRESHOLD = 4, AT_CONTROLS = 8, AT_NOTIFICATION = 12, AT_RESERVED = 14 };
enum { AT_EXITS = 16, EXITS = 32 };
enum { AT_NUMBER = 4, AT_VALUE = 8 };

static uint64_t long_at(const uint8_t *from)
{
    return (uint64_t)load_word(from) | (uint64_t)load_word(from + 4) << 32;
}

struct cpu edge_cpu(const uint8_t *record, size_t record_len)
{
    struct cpu cpu = {.mode = NO_MODE};
    if (record_len != LENGTH)
        return cpu;
    cpu.mode = record[0];
    cpu.rvi = record[1];
    cpu.svi = record[2];
    cpu.recognised = record[3];
    cpu.threshold = load_word(record + AT_THRESHOLD);
    cpu.controls = load_word(record + AT_CONTROLS);
    cpu.notification = load_half(record + AT_NOTIFICATION);
    cpu.reserved = load_half(record + AT_RESERVED);
    memcpy(cpu.eoi_exit, record + AT_EXITS, EXITS);
    return cpu;
}

struct happening edge_happening(const uint8_t *event, size_t event_len)
{
    struct happening happening = {.kind = NO_KIND};
    if (event_len != LENGTH)
        return happening;
    happening.kind = event[0];
    happening.size = event[1];
    happening.flags = event[2];
    happening.detail = event[3];
    happening.number = load_word(event + AT_NUMBER);
    happening.value = long_at(event + AT_VALUE);
    memcpy(happening.eoi_exit, event + AT_EXITS, EXITS);
    return happening;
}

/* Writes a processor back; the reserved bytes stay as they are. */
static void put_cpu(uint8_t *record, const struct cpu *cpu)
{
    record[0] = (uint8_t)cpu->mode;
    record[1] = (uint8_t)cpu->rvi;
    record[2] = (uint8_t)cpu->svi;
    record[3] = (uint8_t)cpu->recognised;
    store_word(record + AT_THRESHOLD, cpu->threshold);
    store_word(record + AT_CONTROLS, cpu->controls);
    store_half(record + AT_NOTIFICATION, cpu->notification);
    memcpy(record + AT_EXITS, cpu->eoi_exit, EXITS);
}

/* Hands an outcome's numbers over. */
static inline uint32_t hand_numbers(struct outcome outcome, uint64_t *first, uint64_t *second)
{
    *first = outcome.first;
    *second = outcome.second;
    return outcome.answer;
}

/* Hands an outcome over; only what isn't refused is written back, but for one fault. */
static inline uint32_t hand_over(struct outcome outcome, const struct cpu *cpu, uint8_t *record,
                                 uint64_t *first, uint64_t *second)
{
    if (outcome.answer != 0 || (FAULT(CHECK_6_TAKES) && outcome.second == 6))
        put_cpu(record, cpu);
    return hand_numbers(outcome, first, second);
}

uint32_t second_step(uint8_t *page, size_t page_len, uint8_t *record, size_t record_len,
                     const uint8_t *event, size_t event_len, uint64_t *first, uint64_t *second)
{
    struct cpu cpu = edge_cpu(record, record_len);
    struct happening happening = edge_happening(event, event_len);
    struct outcome outcome = oracle_step(&cpu, page, page_len, &happening);
    return hand_over(outcome, &cpu, record, first, second);
}

uint32_t second_external_interrupt(uint8_t *page, size_t page_len, uint8_t *record, size_t record_len,
                                   uint8_t *descriptor, size_t descriptor_len, uint32_t vector,
                                   uint64_t *first, uint64_t *second)
{
    struct cpu cpu = edge_cpu(record, record_len);
    struct outcome outcome =
        oracle_external_interrupt(&cpu, page, page_len, descriptor, descriptor_len, vector);
    return hand_over(outcome, &cpu, record, first, second);
}

uint32_t second_leave(uint8_t *record, size_t record_len, uint64_t *first, uint64_t *second)
{
    struct cpu cpu = edge_cpu(record, record_len);
    struct outcome outcome = oracle_leave(&cpu);
    return hand_over(outcome, &cpu, record, first, second);
}

uint32_t second_highest(const uint8_t *page, size_t page_len, uint32_t base, uint64_t *first, uint64_t *second)
{
    return hand_numbers(oracle_highest(page, page_len, base), first, second);
}

uint32_t second_fresh(uint8_t *record, size_t record_len)
{
    if (record_len != LENGTH)
        return 0;
    memset(record, 0, LENGTH);
    return 6;
}
