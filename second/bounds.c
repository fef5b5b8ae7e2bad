/* What is refused before any rule is tried. */
#include "bounds.h"

#include "faults.h"
#include "terms.h"

static bool fits(uint64_t value, unsigned size)
{
    return size == 8 || value >> 8 * size == 0 || FAULT(BOUNDS_VALUE);
}

static bool memory_in_bounds(const struct happening *e)
{
    bool size = e->size == 1 || e->size == 2 || e->size == 4 || e->size == 8;
    if (e->number >= PAGE || !size || e->flags > (FETCH | ALREADY))
        return false;
    return e->kind == READ || (!(e->flags & FETCH) && fits(e->value, e->size));
}

/* Where the flags are held in a number, its other bits must be 0. */
static bool flags_in_bounds(uint32_t flags)
{
    return flags >> (FAULT(BOUNDS_FLAGS) ? CONTROLS + 1 : CONTROLS) == 0;
}

/* An entry's controls have 32 bits, the notification vector above them 16, and two bytes are reserved. */
static bool controls_in_bounds(uint64_t value)
{
    bool reserved = value >> 48 == 0 || FAULT(ENTRY_RESERVED);
    if (FAULT(BOUNDS_ENTRY) && (value >> 32 & 0xFFFF) > 255)
        return false;
    return flags_in_bounds((uint32_t)value) && reserved;
}

/* Whether every field that the event's kind names lies in its bounds. */
static bool event_in_bounds(const struct happening *e)
{
    switch (e->kind) {
    case ENTRY:
        return controls_in_bounds(e->value);
    case READ:
    case WRITE:
        return memory_in_bounds(e);
    case TO_CR8:
        return (e->value <= 15 || FAULT(BOUNDS_CR8)) && e->detail <= 15;
    case FROM_CR8:
        return e->detail <= 15;
    case RDMSR:
    case WRMSR:
        return true;
    case BOUNDARY:
        return e->flags <= 7 && e->detail <= (FAULT(BOUNDS_ACTIVITY) ? 4 : 3);
    case REQUEST:
        return e->number <= 255;
    default:
        return false;
    }
}

static bool record_in_bounds(const struct cpu *cpu)
{
    bool reserved = cpu->reserved == 0 || FAULT(RECORD_RESERVED);
    if (FAULT(BOUNDS_RECORD) && cpu->notification > 255)
        return false;
    return cpu->mode <= 1 && cpu->recognised <= 1 && flags_in_bounds(cpu->controls) && reserved;
}

unsigned bounds_refusal(const struct cpu *cpu, size_t page_len, const struct happening *e)
{
    unsigned needed = e->kind == ENTRY || e->kind == REQUEST ? 0 : 1;
    bool bounds = record_in_bounds(cpu) && event_in_bounds(e);
    if (FAULT(PAGE_LAST) && !bounds)
        return 2;
    if (page_len != PAGE)
        return 1;
    if (FAULT(MODE_FIRST) && cpu->mode != needed)
        return 3;
    if (!bounds)
        return 2;
    return cpu->mode != needed ? 3 : 0;
}

/* Refusals 2 and 3 of an external interrupt: its vector and the record, then the mode. */
static unsigned external_bounds(const struct cpu *cpu, uint32_t vector)
{
    if (!record_in_bounds(cpu) || (vector > 255 && !FAULT(BOUNDS_EXTERNAL)))
        return 2;
    return cpu->mode == 1 || FAULT(EXTERNAL_IN_ROOT) ? 0 : 3;
}

unsigned bounds_external_refusal(const struct cpu *cpu, size_t page_len, size_t descriptor_len,
                                 uint32_t vector)
{
    bool longer = descriptor_len > DESCRIPTOR && FAULT(DESCRIPTOR_LONGER);
    bool right = descriptor_len == DESCRIPTOR || longer;
    unsigned later = external_bounds(cpu, vector);
    if (FAULT(DESCRIPTOR_FIRST) && !right)
        return 5;
    if (page_len != PAGE)
        return 1;
    if (FAULT(DESCRIPTOR_LAST) && later)
        return later;
    return right ? later : 5;
}

unsigned bounds_leave_refusal(const struct cpu *cpu)
{
    if (!record_in_bounds(cpu) && !FAULT(LEAVE_BOUNDS))
        return 2;
    return cpu->mode == 1 || FAULT(LEAVE_IN_ROOT) ? 0 : 3;
}

unsigned bounds_highest_refusal(size_t page_len, uint32_t base)
{
    bool taken = base == VIRR || base == VISR || (FAULT(HIGHEST_OF_180) && base == 0x180);
    if (FAULT(HIGHEST_BASE_FIRST) && !taken)
        return 2;
    if (page_len != PAGE)
        return 1;
    return taken ? 0 : 2;
}
