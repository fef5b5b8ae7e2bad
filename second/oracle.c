/* Document 01's rules, with E1 and E2 of document 02; the leave and the question are the header's. */
#include "oracle.h"

#include "bounds.h"
#include "faults.h"
#include "open.h"
#include "registers.h"
#include "terms.h"

#include <string.h>

/* One processor with its page, as every rule sees it. */
struct apic {
    struct cpu *cpu;
    uint8_t *page;
};

static struct outcome answer(unsigned number, uint64_t first, uint64_t second)
{
    return (struct outcome){number, first, second};
}

static struct outcome quiet(void)
{
    return answer(QUIET, 0, 0);
}

static struct outcome passthrough(void)
{
    return answer(PASSTHROUGH, 0, 0);
}

/* Every way out of the guest ends in root mode with recognition off. */
static void to_root(struct cpu *cpu)
{
    cpu->mode = 0;
    cpu->recognised = 0;
}

static struct outcome leave(struct apic *a, unsigned reason, uint64_t qualification)
{
    to_root(a->cpu);
    return answer(EXITED, reason, qualification);
}

static bool on(const struct apic *a, unsigned bit)
{
    return in(a->cpu->controls, bit);
}

/* The search behind RVI, SVI and the question; its faults show in the question only: none counts as 0. */
static inline int search(const uint8_t *page, unsigned base)
{
    int found = highest(page, base);
    if (FAULT(NONE_IS_ZERO) && found == NO_VECTOR)
        return 0;
    return FAULT(ZERO_IS_NONE) && found == 0 ? NO_VECTOR : found;
}

/* "The highest set vector of an empty register counts as 0": the one place where none becomes a number. */
static inline unsigned or_zero(int found)
{
    return found == NO_VECTOR ? 0 : (unsigned)found;
}

/* PPR virtualization. */
static void set_ppr(struct apic *a)
{
    unsigned task = a->page[VTPR], service = a->cpu->svi;
    bool by_task = class_of(task) >= class_of(service);
    if (FAULT(PPR_TIE))
        by_task = class_of(task) > class_of(service);
    if (FAULT(PPR_TASK_BYTE))
        by_task = true;
    uint32_t kept = FAULT(PPR_NARROW) ? load_word(a->page + VPPR) & ~0xFFu : 0;
    store_word(a->page + VPPR, kept | (by_task ? task : service & 0xF0));
}

/* Evaluation of pending virtual interrupts. */
static void evaluate(struct apic *a)
{
    bool above = class_of(a->cpu->rvi) > class_of(a->page[VPPR]);
    if (FAULT(EVALUATE_BYTES))
        above = a->cpu->rvi > a->page[VPPR];
    a->cpu->recognised = above && (FAULT(EVALUATE_WINDOW) || !on(a, WINDOW));
}

/* TPR virtualization. */
static struct outcome tpr(struct apic *a)
{
    uint32_t limit = FAULT(THRESHOLD_BITS) ? a->cpu->threshold : a->cpu->threshold & 15;
    if (!on(a, DELIVERY))
        return class_of(a->page[VTPR]) < limit ? leave(a, 43, 0) : quiet();
    set_ppr(a);
    evaluate(a);
    return quiet();
}

/* EOI virtualization: the EOI-exit bit is that of the vector retired. */
static struct outcome eoi(struct apic *a)
{
    unsigned old = a->cpu->svi;
    if (!FAULT(EOI_KEEPS_BIT))
        put_vector(a->page, VISR, old, false);
    int left = search(a->page, VISR);
    if (!(FAULT(EOI_KEEPS_SVI) && left == NO_VECTOR))
        a->cpu->svi = or_zero(left);
    set_ppr(a);
    unsigned asked = FAULT(EOI_NEW_SVI) ? a->cpu->svi : old;
    bool leaves = a->cpu->eoi_exit[asked / 8] >> asked % 8 & 1;
    struct outcome result = leaves ? leave(a, 45, old) : quiet();
    if (!leaves || FAULT(EOI_EVALUATES))
        evaluate(a);
    return result;
}

static struct outcome request(struct apic *a, unsigned vector)
{
    put_vector(a->page, VIRR, vector, true);
    if (vector > a->cpu->rvi || FAULT(REQUEST_MAX))
        a->cpu->rvi = vector;
    return quiet();
}

/* Self-IPI virtualization. */
static struct outcome self_ipi(struct apic *a, unsigned vector)
{
    request(a, vector);
    evaluate(a);
    return quiet();
}

/* An entry's notification vector, which stands above its controls. */
static uint16_t notification_of(const struct happening *e)
{
    return (uint16_t)(e->value >> 32);
}

/* Check 5: posting on without VID, without acknowledge, or with a notification vector above 255. */
static bool check_5_fails(const struct happening *e)
{
    uint32_t c = (uint32_t)e->value;
    bool vid = in(c, DELIVERY) || FAULT(CHECK_5_VID);
    bool acknowledge = in(c, ACKNOWLEDGE) || FAULT(CHECK_5_ACKNOWLEDGE);
    bool vector = notification_of(e) <= 255 || FAULT(CHECK_5_VECTOR);
    if (FAULT(CHECK_5_OFF) && !vector)
        return true;
    return in(c, POSTING) && !(vid && acknowledge && vector);
}

/* E2: the entry's threshold counts, shadow on and VID off, and the priority given is of a class below it. */
static bool enters_below(const struct happening *e, unsigned priority)
{
    uint32_t c = (uint32_t)e->value;
    return in(c, SHADOW) && !in(c, DELIVERY) && class_of(priority) < e->number;
}

/* Check 6: such an entry fails where no APIC accesses are virtualised. */
static bool check_6_fails(const struct happening *e, const uint8_t *page)
{
    if (FAULT(CHECK_6_DROPPED) || FAULT(CHECK_6_EXITS))
        return false;
    if (in((uint32_t)e->value, ACCESSES) && !FAULT(CHECK_6_ACCESSES))
        return false;
    return enters_below(e, page[FAULT(CHECK_6_VPPR) ? VPPR : VTPR]);
}

/* The number of the first entry check that fails, 0 where none does. */
static unsigned failing_check(const struct happening *e, const uint8_t *page)
{
    uint32_t c = (uint32_t)e->value;
    bool shadow = in(c, SHADOW), vid = in(c, DELIVERY);
    bool both = in(c, ACCESSES) && in(c, X2APIC);
    if (FAULT(CHECK_ORDER) && both)
        return 2;
    if (!shadow && (in(c, X2APIC) || in(c, REGISTERS) || vid))
        return 1;
    if (both)
        return 2;
    if (vid && !in(c, EXTERNAL))
        return 3;
    if (FAULT(CHECK_6_FIRST) && check_6_fails(e, page))
        return 6;
    if (FAULT(CHECK_5_FIRST) && check_5_fails(e))
        return 5;
    if (shadow && !vid && e->number > 15)
        return 4;
    if (FAULT(CHECK_5_LAST) && check_6_fails(e, page))
        return 6;
    if (check_5_fails(e))
        return 5;
    return check_6_fails(e, page) ? 6 : 0;
}

static void take_controls(struct cpu *cpu, const struct happening *e)
{
    cpu->controls = (uint32_t)e->value;
    cpu->threshold = e->number;
    if (!FAULT(ENTRY_KEEPS_VECTOR))
        cpu->notification = notification_of(e) & (FAULT(ENTRY_LOW_BYTE) ? 0xFF : 0xFFFF);
    memcpy(cpu->eoi_exit, e->eoi_exit, sizeof e->eoi_exit);
}

static struct outcome entry(struct apic *a, const struct happening *e)
{
    struct cpu before = *a->cpu;
    unsigned check = failing_check(e, a->page);
    if (!check || (FAULT(CHECK_6_TAKES) && check == 6))
        take_controls(a->cpu, e);
    if (check)
        return answer(REFUSED, 4, check);
    bool exits = on(a, ACCESSES) || FAULT(CHECK_6_EXITS);
    if (exits && enters_below(e, a->page[VTPR]) && !FAULT(ENTRY_NO_43)) {
        if (FAULT(ENTRY_43_DROPS))
            *a->cpu = before;
        return leave(a, 43, 0);
    }
    a->cpu->mode = 1;
    a->cpu->recognised = 0;
    if (on(a, DELIVERY)) {
        if (!FAULT(ENTRY_NO_PPR))
            set_ppr(a);
        evaluate(a);
    }
    return quiet();
}

/* Whether an access to a virtualised page leaves the guest instead of being redirected. */
static bool access_exits(const struct apic *a, const struct happening *e)
{
    if (!on(a, SHADOW) || (e->flags & FETCH) || e->size == 8)
        return true;
    if ((e->flags & ALREADY) && !FAULT(ALREADY_IGNORED))
        return true;
    if (e->number % 16 + e->size > 4 && !FAULT(ACROSS))
        return true;
    return !open_offset(a->cpu->controls, e->number, e->kind == WRITE);
}

static struct outcome access_exit(struct apic *a, const struct happening *e)
{
    unsigned access = e->kind == WRITE ? 0x1000 : e->flags & FETCH ? 0x2000 : 0;
    if (FAULT(FETCH_AS_READ) && access == 0x2000)
        access = 0;
    return leave(a, 44, e->number + access);
}

static struct outcome memory_read(struct apic *a, const struct happening *e)
{
    if (!on(a, ACCESSES))
        return passthrough();
    if (access_exits(a, e))
        return access_exit(a, e);
    return answer(REDIRECTED, load(a->page + e->number, e->size), 0);
}

/* Whether VICR_LO asks for a fixed, edge-triggered self-IPI; bits 11 and 14 don't count. */
static bool is_self_ipi(uint32_t icr)
{
    uint32_t zero = 0xFFF00000u | 3u << 16 | 1u << 15 | 1u << 13 | 1u << 12 | 7u << 8;
    if (FAULT(ICR_RESERVED))
        zero |= 1u << 14 | 1u << 11;
    if (FAULT(ICR_SPARE))
        zero &= ~(1u << 13);
    bool self = (icr >> 18 & 3) == 1 || FAULT(ICR_SHORTHAND);
    return !(icr & zero) && self && class_of(icr) != 0;
}

/* What follows a redirected write once its bytes are on the page. */
static struct outcome after_write(struct apic *a, unsigned offset)
{
    if (offset == VTPR) {
        if (!FAULT(VTPR_TOP))
            store_word(a->page + VTPR, a->page[VTPR]);
        return tpr(a);
    }
    if (offset == VEOI && on(a, DELIVERY)) {
        store_word(a->page + VEOI, 0);
        return eoi(a);
    }
    if (offset == ICR_LOW && on(a, DELIVERY) && is_self_ipi(load_word(a->page + ICR_LOW)))
        return self_ipi(a, a->page[ICR_LOW]);
    if (FAULT(VICR_HI_EXACT) ? offset == ICR_HIGH : offset / 4 == ICR_HIGH / 4) {
        store(a->page + ICR_HIGH, 3, 0);
        return quiet();
    }
    return leave(a, 56, offset);
}

static struct outcome memory_write(struct apic *a, const struct happening *e)
{
    if (!on(a, ACCESSES))
        return passthrough();
    if (access_exits(a, e))
        return access_exit(a, e);
    uint64_t old = FAULT(EXIT_SKIPS_STORE) ? load(a->page + e->number, e->size) : 0;
    store(a->page + e->number, e->size, e->value);
    struct outcome result = after_write(a, e->number);
    if (FAULT(EXIT_SKIPS_STORE) && result.answer == EXITED && result.first == 56)
        store(a->page + e->number, e->size, old);
    return result;
}

/* Exit 28's qualification: register 8, the direction, the general register. */
static uint64_t cr8_qualification(const struct happening *e)
{
    uint64_t direction = e->kind == FROM_CR8 && !FAULT(CR8_DIRECTION) ? 16 : 0;
    return 8 + direction + (FAULT(CR8_REGISTER) ? 0 : 256 * (uint64_t)e->detail);
}

static struct outcome to_cr8(struct apic *a, const struct happening *e)
{
    if (on(a, CR8_LOAD))
        return leave(a, 28, cr8_qualification(e));
    if (!on(a, SHADOW))
        return passthrough();
    store_word(a->page + VTPR, 16 * (uint32_t)e->value);
    return tpr(a);
}

static struct outcome from_cr8(struct apic *a, const struct happening *e)
{
    if (on(a, CR8_STORE))
        return leave(a, 28, cr8_qualification(e));
    if (!on(a, SHADOW))
        return passthrough();
    return answer(REDIRECTED, class_of(a->page[VTPR]), 0);
}

static uint8_t *msr_place(struct apic *a, uint32_t index)
{
    return a->page + index % 256 * 16;
}

static struct outcome rdmsr(struct apic *a, const struct happening *e)
{
    uint32_t last = FAULT(RDMSR_RANGE) ? 0x83F : 0x8FF;
    bool inside = e->number >= 0x800 && e->number <= last;
    if (!on(a, X2APIC) || !inside || (!on(a, REGISTERS) && e->number != MSR_TPR))
        return passthrough();
    return answer(REDIRECTED, load(msr_place(a, e->number), 8), 0);
}

static bool wrmsr_faults(const struct happening *e)
{
    if (e->number == MSR_EOI)
        return e->value > (FAULT(WRMSR_EOI) ? 255 : 0);
    return e->value > 255 && !FAULT(WRMSR_FAULT);
}

static struct outcome wrmsr(struct apic *a, const struct happening *e)
{
    bool with_vid = e->number == MSR_EOI || e->number == MSR_SELF_IPI;
    if (!on(a, X2APIC) || !(e->number == MSR_TPR || (with_vid && on(a, DELIVERY))))
        return passthrough();
    if (wrmsr_faults(e))
        return answer(FAULTED, 0, 0);
    unsigned vector = e->value & 0xFF;
    bool self = e->number == MSR_SELF_IPI, sends = self && vector >= 16;
    bool skipped = sends ? FAULT(WRMSR_NO_STORE) : self && FAULT(EXIT_SKIPS_STORE);
    if (!skipped)
        store(msr_place(a, e->number), FAULT(WRMSR_NARROW) ? 4 : 8, e->value);
    if (e->number == MSR_TPR)
        return tpr(a);
    if (e->number == MSR_EOI)
        return eoi(a);
    return sends ? self_ipi(a, vector) : leave(a, 56, 0x3F0);
}

static bool boundary_open(const struct happening *e)
{
    unsigned counted = FAULT(MOV_SS_OPEN) ? 3 : 7;
    return (e->flags & counted) == 1 && e->detail <= (FAULT(HLT_SHUT) ? 0 : 1);
}

/* Virtual-interrupt delivery of RVI. */
static struct outcome deliver(struct apic *a)
{
    unsigned vector = a->cpu->rvi;
    put_vector(a->page, VISR, vector, true);
    a->cpu->svi = vector;
    store_word(a->page + VPPR, vector & 0xF0);
    if (!FAULT(DELIVERY_KEEPS))
        put_vector(a->page, VIRR, vector, false);
    int left = search(a->page, VIRR);
    if (!(FAULT(DELIVERY_KEEPS_RVI) && left == NO_VECTOR))
        a->cpu->rvi = or_zero(left);
    a->cpu->recognised = FAULT(DELIVERY_AGAIN) ? 1 : 0;
    return answer(DELIVERED, vector, 0);
}

static struct outcome boundary(struct apic *a, const struct happening *e)
{
    bool open = boundary_open(e);
    if (open && on(a, WINDOW)) {
        struct outcome result = leave(a, 7, 0);
        if (FAULT(EXIT_IN_GUEST))
            a->cpu->mode = 1;
        return result;
    }
    return open && a->cpu->recognised ? deliver(a) : quiet();
}

struct outcome oracle_step(struct cpu *cpu, uint8_t *page, size_t page_len, const struct happening *event)
{
    struct apic a = {cpu, page};
    unsigned refused = bounds_refusal(cpu, page_len, event);
    if (refused)
        return answer(REFUSED, refused, 0);
    switch (event->kind) {
    case ENTRY:
        return entry(&a, event);
    case READ:
        return memory_read(&a, event);
    case WRITE:
        return memory_write(&a, event);
    case TO_CR8:
        return to_cr8(&a, event);
    case FROM_CR8:
        return from_cr8(&a, event);
    case RDMSR:
        return rdmsr(&a, event);
    case WRMSR:
        return wrmsr(&a, event);
    case BOUNDARY:
        return boundary(&a, event);
    default:
        return request(&a, event->number);
    }
}

/* Whether an external interrupt is the notification that something is posted: all 16 bits are compared. */
static bool notifies(const struct apic *a, uint32_t vector)
{
    bool posting = on(a, POSTING) || FAULT(POSTING_OFF);
    if ((FAULT(POSTING_VID) && !on(a, DELIVERY)) || (FAULT(POSTING_ACKNOWLEDGE) && !on(a, ACKNOWLEDGE)))
        posting = false;
    return posting && vector == (a->cpu->notification & (FAULT(POSTING_LOW_BYTE) ? 0xFF : 0xFFFF));
}

/* The outstanding bit is cleared; bits 7:1 of its byte and the bytes after it stay. */
static void clear_outstanding(uint8_t *descriptor)
{
    uint8_t kept = FAULT(OUTSTANDING_KEPT) ? 0xFF : NOT_OUTSTANDING;
    descriptor[AT_OUTSTANDING] &= FAULT(POSTING_CLEARS_BYTE) ? 0 : kept;
    if (FAULT(POSTING_CLEARS_REST))
        memset(descriptor + AT_OUTSTANDING + 1, 0, DESCRIPTOR - AT_OUTSTANDING - 1);
}

/* "Posted bits join VIRR and are cleared": the highest of them, or none. */
static int join_posted(struct apic *a, uint8_t *descriptor)
{
    for (unsigned row = 0; FAULT(POSTING_REPLACES) && row < 8; row++)
        store_word(a->page + VIRR + 16 * row, 0);
    int found = take_posted(a->page, VIRR, descriptor);
    if (FAULT(POSTING_KEEPS) && found != NO_VECTOR)
        descriptor[found / 8] |= (uint8_t)(1u << found % 8);
    return FAULT(POSTING_NONE_255) && found == NO_VECTOR ? 255 : found;
}

/* A notification is processed whether or not it is outstanding; without a posted vector RVI stays. */
static struct outcome process_posted(struct apic *a, uint8_t *descriptor)
{
    if (FAULT(OUTSTANDING_ASKED) && !(descriptor[AT_OUTSTANDING] & 1))
        return quiet();
    clear_outstanding(descriptor);
    int found = join_posted(a, descriptor);
    if (found > (int)a->cpu->rvi || (FAULT(POSTING_LOWERS) && found != NO_VECTOR))
        a->cpu->rvi = (unsigned)found;
    if (FAULT(POSTING_RVI_OF_VIRR))
        a->cpu->rvi = or_zero(search(a->page, VIRR));
    if (!FAULT(POSTING_NO_EVALUATION))
        evaluate(a);
    return quiet();
}

struct outcome oracle_external_interrupt(struct cpu *cpu, uint8_t *page, size_t page_len, uint8_t *descriptor,
                                         size_t descriptor_len, uint32_t vector)
{
    struct apic a = {cpu, page};
    unsigned refused = bounds_external_refusal(cpu, page_len, descriptor_len, vector);
    if (refused)
        return answer(REFUSED, refused, 0);
    if (!on(&a, EXTERNAL) && !FAULT(EXTERNAL_EXITS))
        return passthrough();
    if (notifies(&a, vector))
        return process_posted(&a, descriptor);
    if (FAULT(EXIT_1_CLEARS))
        clear_outstanding(descriptor);
    return leave(&a, 1, FAULT(EXIT_1_VECTOR) ? vector : 0);
}

struct outcome oracle_leave(struct cpu *cpu)
{
    struct cpu before = *cpu;
    unsigned refused = bounds_leave_refusal(cpu);
    if (refused)
        return answer(REFUSED, refused, 0);
    to_root(cpu);
    if (FAULT(LEAVE_GUEST))
        cpu->mode = before.mode;
    if (FAULT(LEAVE_RECOGNISED))
        cpu->recognised = before.recognised;
    if (FAULT(LEAVE_REQUEST))
        cpu->rvi = 0;
    return quiet();
}

struct outcome oracle_highest(const uint8_t *page, size_t page_len, uint32_t base)
{
    unsigned refused = bounds_highest_refusal(page_len, base);
    if (refused)
        return answer(HIGHEST_REFUSED, refused, 0);
    int found = search(page, base);
    return found == NO_VECTOR ? answer(HIGHEST_NONE, 0, 0) : answer(HIGHEST_VECTOR, (uint64_t)found, 0);
}
