/* The documents' offsets, control bits and answers; the header's kinds of event and answers of the question. */
#ifndef TERMS_H
#define TERMS_H

#include <stdbool.h>
#include <stdint.h>

enum { PAGE = 4096, DESCRIPTOR = 64 };
enum { VTPR = 0x080, VPPR = 0x0A0, VEOI = 0x0B0, VISR = 0x100, VIRR = 0x200 };
enum { ICR_LOW = 0x300, ICR_HIGH = 0x310 };
/* The descriptor's byte whose bit 0 is the outstanding bit, and what a clear of that bit leaves of it. */
enum { AT_OUTSTANDING = 32, NOT_OUTSTANDING = 0xFE };
/* Control bit numbers and answers are the documents'; kinds and the question's own answers are the header's. */
enum { SHADOW, ACCESSES, X2APIC, REGISTERS, DELIVERY, EXTERNAL, WINDOW, CR8_LOAD, CR8_STORE };
enum { POSTING = CR8_STORE + 1, ACKNOWLEDGE, CONTROLS };
enum { ENTRY = 1, READ, WRITE, TO_CR8, FROM_CR8, RDMSR, WRMSR, BOUNDARY, REQUEST };
enum { REFUSED, REDIRECTED, PASSTHROUGH, FAULTED, EXITED, DELIVERED, QUIET };
enum { HIGHEST_REFUSED, HIGHEST_VECTOR, HIGHEST_NONE };
enum { FETCH = 1, ALREADY = 2 };
enum { MSR_TPR = 0x808, MSR_EOI = 0x80B, MSR_SELF_IPI = 0x83F };

/* Whether a set of controls has one. */
static inline bool in(uint32_t controls, unsigned bit)
{
    return controls >> bit & 1;
}

static inline unsigned class_of(uint64_t value)
{
    return value >> 4 & 15;
}

#endif
