/* The second program: the documents' rules, the header's leave and question, each from its own sentences. */
#ifndef ORACLE_H
#define ORACLE_H

#include <stddef.h>
#include <stdint.h>

/* The processor, held in plain fields; out-of-range values are kept so that they can be refused. */
struct cpu {
    unsigned mode;
    unsigned rvi;
    unsigned svi;
    unsigned recognised;
    uint32_t threshold;
    uint32_t controls;
    uint16_t notification; /* the notification vector, bytes 12 and 13 */
    unsigned reserved;     /* bytes 14 and 15, which must be 0 */
    uint8_t eoi_exit[32];  /* vector v at byte v / 8, bit v mod 8 */
};

/*
 * What happens to the processor; which fields count depends on the kind. An entry's value is its controls,
 * with the notification vector in bits 47:32.
 */
struct happening {
    unsigned kind;
    unsigned size;
    unsigned flags;
    unsigned detail;
    uint32_t number;
    uint64_t value;
    uint8_t eoi_exit[32];
};

/* An answer's number with its two numbers. */
struct outcome {
    unsigned answer;
    uint64_t first;
    uint64_t second;
};

/* A record and an event that no rule allows, used where bytes cannot be read as either. */
enum { NO_MODE = 255, NO_KIND = 0 };

struct outcome oracle_step(struct cpu *cpu, uint8_t *page, size_t page_len, const struct happening *event);

/* E1: an external interrupt with a vector, which alone takes the descriptor. */
struct outcome oracle_external_interrupt(struct cpu *cpu, uint8_t *page, size_t page_len, uint8_t *descriptor,
                                         size_t descriptor_len, uint32_t vector);

/* The guest leaves for a reason that is no event. */
struct outcome oracle_leave(struct cpu *cpu);

/* The question: the highest set vector of the register at base, or none. */
struct outcome oracle_highest(const uint8_t *page, size_t page_len, uint32_t base);

#endif
