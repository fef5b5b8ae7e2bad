/*
 * Garlandgrid: a proved model of Intel's virtual interrupt controller.
 *
 * One virtual processor is a page and a record, both owned by the caller and handed to every call:
 *   the page is its virtual-APIC page, the 4,096 bytes that hold VTPR, VPPR, VISR, VIRR and the others;
 *   the record is what the processor itself holds, 48 bytes laid out as struct gg_record below.
 * A processor starts with a page of zeros and the record that gg_fresh writes.
 * gg_step carries out one event on the two and answers; gg_external_interrupt carries out the one event that
 * takes a third part, the descriptor into which others post while the guest runs; gg_leave takes the guest out
 * for a reason that is no event of the model; gg_highest reads a page and tells its highest request or service.
 * gg_replay runs a trace, the bytes of a recorded session, on a processor of its own and writes the answers as
 * text; the gg_trace functions record such a trace beside gg_step.
 * The library keeps nothing from one call to the next.
 * Offsets, vectors, reasons and numbers are those of the project's build scope.
 */
#ifndef GARLANDGRID_H
#define GARLANDGRID_H

#include <stddef.h>
#include <stdint.h>

#ifdef __cplusplus
#define GG_STATIC_ASSERT(condition, words) static_assert(condition, words)
extern "C" {
#else
#define GG_STATIC_ASSERT(condition, words) _Static_assert(condition, words)
#endif

/* The structures overlay little-endian bytes, so only a little-endian host may use them. */
#if defined(__BYTE_ORDER__) && defined(__ORDER_LITTLE_ENDIAN__)
GG_STATIC_ASSERT(__BYTE_ORDER__ == __ORDER_LITTLE_ENDIAN__, "the record and event are little-endian");
#endif

/* The major number grows where a promise changes, the minor one where something is added. */
#define GG_VERSION_MAJOR 2
#define GG_VERSION_MINOR 2

/* Lengths that the functions accept; any other length is refused. */
enum {
    GG_PAGE_LENGTH = 4096,
    GG_RECORD_LENGTH = 48,
    GG_EVENT_LENGTH = 48,
    GG_DESCRIPTOR_LENGTH = 64
};

/* Controls, as bits of gg_record.flags and of an entry's controls; all higher bits are 0. */
#define GG_USE_TPR_SHADOW (UINT32_C(1) << 0)
#define GG_VIRTUALIZE_APIC_ACCESSES (UINT32_C(1) << 1)
#define GG_VIRTUALIZE_X2APIC_MODE (UINT32_C(1) << 2)
#define GG_APIC_REGISTER_VIRTUALIZATION (UINT32_C(1) << 3)
#define GG_VIRTUAL_INTERRUPT_DELIVERY (UINT32_C(1) << 4)
#define GG_EXTERNAL_INTERRUPT_EXITING (UINT32_C(1) << 5)
#define GG_INTERRUPT_WINDOW_EXITING (UINT32_C(1) << 6)
#define GG_CR8_LOAD_EXITING (UINT32_C(1) << 7)
#define GG_CR8_STORE_EXITING (UINT32_C(1) << 8)
#define GG_PROCESS_POSTED_INTERRUPTS (UINT32_C(1) << 9)
#define GG_ACKNOWLEDGE_INTERRUPT_ON_EXIT (UINT32_C(1) << 10)
#define GG_ALL_CONTROLS ((UINT32_C(1) << 11) - 1)

/* gg_record.mode: which events are allowed depends on it. */
enum {
    GG_ROOT = 0,
    GG_GUEST = 1
};

/*
 * gg_event.kind: entry and request belong to root mode, all others to the guest. The external interrupt, the
 * guest's too, has no kind: it takes a descriptor and is a function of its own, gg_external_interrupt.
 */
enum {
    GG_ENTRY = 1,
    GG_MEMORY_READ = 2,
    GG_MEMORY_WRITE = 3,
    GG_TO_CR8 = 4,
    GG_FROM_CR8 = 5,
    GG_RDMSR = 6,
    GG_WRMSR = 7,
    GG_BOUNDARY = 8,
    GG_REQUEST = 9
};

/*
 * gg_event.flags of a memory read or write; a write never has the fetch bit.
 * Already virtualised: an earlier access of the same instruction was a write that answered GG_QUIET.
 * The core clears it where an instruction begins.
 */
enum {
    GG_INSTRUCTION_FETCH = 1,
    GG_ALREADY_VIRTUALISED = 2
};

/* gg_event.flags of a boundary. */
enum {
    GG_IF = 1,
    GG_BLOCKING_BY_STI = 2,
    GG_BLOCKING_BY_MOV_SS = 4
};

/* gg_event.detail of a boundary: the activity state; active and HLT let an interrupt in. */
enum {
    GG_ACTIVE = 0,
    GG_HLT = 1,
    GG_SHUTDOWN = 2,
    GG_WAIT_FOR_SIPI = 3
};

/* Answers: what all but gg_fresh, gg_highest and gg_replay return; the comment names first and second. */
enum {
    GG_REFUSED = 0,     /* refusal, failing entry check (0 but for refusal 4) */
    GG_REDIRECTED = 1,  /* value read */
    GG_PASSTHROUGH = 2, /* the model has no part in the access or interrupt: the core does it */
    GG_FAULT = 3,       /* general-protection fault */
    GG_VM_EXIT = 4,     /* reason, qualification */
    GG_DELIVERED = 5,   /* vector */
    GG_QUIET = 6        /* what was asked is carried out */
};

/* Answers of gg_highest, three of its own; the comment names what first holds, and second is always 0. */
enum {
    GG_HIGHEST_REFUSED = 0, /* refusal: GG_REFUSED_PAGE_LENGTH, or GG_REFUSED_BOUNDS for another base */
    GG_HIGHEST_VECTOR = 1,  /* the highest set vector, 0 where bit 0 alone is set */
    GG_HIGHEST_NONE = 2     /* no bit is set */
};

/* Answers of gg_replay, two of its own. */
enum {
    GG_REPLAY_TOO_SHORT = 0, /* the buffer is shorter than the text */
    GG_REPLAY_WRITTEN = 1    /* the text stands in the buffer */
};

/* After so many records the program replay stops; gg_replay takes its limit from the caller. */
enum {
    GG_REPLAY_LIMIT = 10000
};

/*
 * A buffer that is long enough for the text of every trace, by the limit. A record's line has at most 50 bytes:
 * a record number of 5 digits, an answer of 1, two numbers of 20 each, three blanks and the line's end. The last
 * line has at most 11.
 */
#define GG_REPLAY_ROOM(limit) ((size_t)50 * (limit) + 11)

/*
 * A trace: a version byte, then records. A record is the length of its body in two bytes, then the body: a kind
 * and its fields. All numbers are big-endian. The kinds are those of gg_event.kind, and the controls as one
 * more.
 */
enum {
    GG_TRACE_VERSION = 1,
    GG_TRACE_LENGTH = 61440,      /* the longest trace that is replayed */
    GG_TRACE_CONTROLS = 0,        /* the kind of the controls that later entries bring */
    GG_TRACE_CONTROLS_LENGTH = 39 /* of their body, the longest */
};

/* The controls that a trace can hold; those of posted interrupts stay off in it. */
#define GG_TRACE_ALL_CONTROLS ((UINT32_C(1) << 9) - 1)

/* Refusals, in the order in which they are tested; none changes page, record or descriptor. */
enum {
    GG_REFUSED_PAGE_LENGTH = 1,
    GG_REFUSED_DESCRIPTOR_LENGTH = 5, /* of gg_external_interrupt alone */
    GG_REFUSED_BOUNDS = 2,
    GG_REFUSED_MODE = 3,
    GG_REFUSED_ENTRY_CHECK = 4
};

/*
 * Entry checks, in the order in which they are tested. Check 6 alone reads the page: with APIC accesses
 * virtualised, what it looks for is GG_EXIT_TPR_BELOW_THRESHOLD instead.
 */
enum {
    GG_CHECK_TPR_SHADOW_OFF = 1,      /* x2APIC mode, registers or VID without the shadow */
    GG_CHECK_BOTH_APIC_MODES = 2,     /* APIC accesses together with x2APIC mode */
    GG_CHECK_EXTERNAL_INTERRUPTS = 3, /* VID without external-interrupt exiting */
    GG_CHECK_TPR_THRESHOLD = 4,       /* shadow without VID and a threshold above 15 */
    GG_CHECK_POSTED_INTERRUPTS = 5,   /* posting without VID, without acknowledge, or with a vector above 255 */
    GG_CHECK_TPR_BELOW_THRESHOLD = 6  /* shadow, neither VID nor APIC accesses, a threshold above VTPR's class */
};

/* Basic exit reasons: before the instruction, nothing of it is done; after it, its write stays. */
enum {
    GG_EXIT_EXTERNAL_INTERRUPT = 1,   /* between instructions */
    GG_EXIT_INTERRUPT_WINDOW = 7,     /* at the boundary */
    GG_EXIT_CONTROL_REGISTER = 28,    /* before the instruction */
    GG_EXIT_TPR_BELOW_THRESHOLD = 43, /* after it; at an entry with APIC accesses, before any instruction */
    GG_EXIT_APIC_ACCESS = 44,         /* before it */
    GG_EXIT_VIRTUALIZED_EOI = 45,     /* after it */
    GG_EXIT_APIC_WRITE = 56           /* after it */
};

/* Exit 44's qualification is the offset plus the kind of access. */
enum {
    GG_QUALIFICATION_READ = 0x0000,
    GG_QUALIFICATION_WRITE = 0x1000,
    GG_QUALIFICATION_FETCH = 0x2000
};

/* Register offsets on the page; VISR and VIRR are eight words each, sixteen bytes apart. */
enum {
    GG_VTPR = 0x080,
    GG_VPPR = 0x0A0,
    GG_VEOI = 0x0B0,
    GG_VISR = 0x100,
    GG_VIRR = 0x200,
    GG_VICR_LO = 0x300,
    GG_VICR_HI = 0x310
};

/* Stops a compiler that would put a field anywhere but at its place in the bytes. */
#define GG_AT(place, structure, field) \
    GG_STATIC_ASSERT(offsetof(struct structure, field) == (place), #structure "." #field " stands at " #place)

/*
 * The processor record, laid over its 48 bytes. Out of bounds are a mode or a recognised above 1, a flag
 * above bit 10 and a reserved byte other than 0; every other record is taken, reachable or not.
 */
struct gg_record {
    uint8_t mode;                 /* GG_ROOT or GG_GUEST */
    uint8_t rvi;                  /* requesting virtual interrupt */
    uint8_t svi;                  /* servicing virtual interrupt */
    uint8_t recognised;           /* 1 while a virtual interrupt is recognised, else 0 */
    uint32_t threshold;           /* TPR threshold: all of it at an entry, bits 3:0 at a TPR write */
    uint32_t flags;               /* controls in force */
    uint16_t notification_vector; /* the vector at which posted requests are processed */
    uint8_t reserved_zero[2];     /* kept for two summaries */
    uint64_t eoi_exit[4];         /* vector v at word v / 64, bit v mod 64 */
};

GG_STATIC_ASSERT(sizeof(struct gg_record) == GG_RECORD_LENGTH, "record length");
GG_AT(0, gg_record, mode);
GG_AT(1, gg_record, rvi);
GG_AT(2, gg_record, svi);
GG_AT(3, gg_record, recognised);
GG_AT(4, gg_record, threshold);
GG_AT(8, gg_record, flags);
GG_AT(12, gg_record, notification_vector);
GG_AT(14, gg_record, reserved_zero);
GG_AT(16, gg_record, eoi_exit);

/*
 * One event, laid over its 48 bytes; a field that the kind does not name is ignored. An entry's value is bytes 8
 * to 15 of the record: controls in bits 31:0, notification vector in bits 47:32, above them 0.
 */
struct gg_event {
    uint8_t kind;         /* GG_ENTRY to GG_REQUEST */
    uint8_t size;         /* memory: 1, 2, 4 or 8 */
    uint8_t flags;        /* memory: fetch, already virtualised; boundary: IF, blocking */
    uint8_t detail;       /* CR8: register 0 to 15; boundary: activity 0 to 3 */
    uint32_t number;      /* memory: offset 0 to 4095; MSR: index; request: vector 0 to 255; entry: threshold */
    uint64_t value;       /* memory write, to CR8 (0 to 15), WRMSR; entry: controls and notification vector */
    uint64_t eoi_exit[4]; /* entry: as in the record */
};

GG_STATIC_ASSERT(sizeof(struct gg_event) == GG_EVENT_LENGTH, "event length");
GG_AT(0, gg_event, kind);
GG_AT(1, gg_event, size);
GG_AT(2, gg_event, flags);
GG_AT(3, gg_event, detail);
GG_AT(4, gg_event, number);
GG_AT(8, gg_event, value);
GG_AT(16, gg_event, eoi_exit);

/* An answer with its two numbers; a number that the answer does not name is 0. */
struct gg_answer {
    uint32_t number;
    uint64_t first;
    uint64_t second;
};

/*
 * Writes a fresh record, 48 zero bytes that stand for root mode, and returns GG_QUIET.
 * Any length but 48, a null record of length 0 among them, returns GG_REFUSED and writes nothing.
 * The page is not handed over: the caller fills a fresh processor's page with zeros.
 */
uint32_t gg_fresh(uint8_t *record, size_t record_len);

/*
 * Carries out one event on a page and a record and returns the answer, GG_REFUSED to GG_QUIET.
 * first and second always get the answer's two numbers, and 0 where it names none.
 * Refusals are tested in this order, and each leaves every byte of page and record:
 *   1, the page isn't 4,096 bytes long; 2, record or event isn't 48 bytes long or has a field out of
 *   bounds; 3, the event belongs to the other mode; 4, an entry check fails, with the first one in second.
 * A null page, record or event with length 0 is refused as any wrong length is; with another length,
 * each points to that many bytes, at any address. first and second are never null. Nothing overlaps.
 */
uint32_t gg_step(uint8_t *page, size_t page_len, uint8_t *record, size_t record_len,
                 const uint8_t *event, size_t event_len, uint64_t *first, uint64_t *second);

/*
 * An external interrupt with a vector 0 to 255 arrives while the guest runs. It alone takes the descriptor, 64
 * bytes into which devices and other processors post:
 *   bytes 0 to 31 are the posted requests, vector v at byte v / 8, bit v mod 8;
 *   bit 0 of byte 32 is the outstanding notification; bits 7:1 of it and bytes 33 to 63 never change.
 * It returns one of four answers, with its two numbers in first and second, 0 where it names none:
 *   GG_PASSTHROUGH, external-interrupt exiting is off: nothing changes, and the guest's own IDT gets the vector;
 *   GG_VM_EXIT, reason GG_EXIT_EXTERNAL_INTERRUPT and qualification 0, posting is off or the vector isn't the
 *     notification vector, all 16 bits compared: the record gets root mode and recognition off, page and
 *     descriptor stay;
 *   GG_QUIET, posted requests are processed: the outstanding bit is cleared, posted bits join VIRR and are
 *     cleared, RVI becomes the larger of itself and the highest posted vector (unchanged if none), evaluation;
 *   GG_REFUSED, with the refusal in first.
 * Neither VID nor the outstanding bit is looked at: a notification with nothing posted is processed too.
 * Refusals are tested in this order, and each leaves every byte of page, record and descriptor:
 *   1, the page isn't 4,096 bytes long; 5, the descriptor isn't 64 bytes long; 2, the record isn't 48 bytes
 *   long or has a field out of bounds, or the vector is above 255; 3, the record is in root mode.
 * A null page, record or descriptor with length 0 is refused as any wrong length is; with another length,
 * each points to that many bytes, at any address. first and second are never null. Nothing overlaps.
 *
 * Others post into a shared descriptor at any time, and the call is no atomic operation on it. The caller makes
 * sure that nobody writes it during the call, or hands in a copy and merges:
 *   the copy starts as 64 zero bytes; an atomic AND with FEH takes the outstanding bit out of byte 32, then an
 *   atomic exchange with 0 takes the 32 request bytes, word by word; what was taken is put into the copy;
 *   after GG_QUIET nothing is left to do: what was taken is processed;
 *   after any other answer an atomic OR puts the taken requests back, then the outstanding bit if it was taken.
 * The outstanding bit is the first out and the last back, and the notification is acknowledged before: a vector
 * posted in between is then taken with the others, or still there under a new notification.
 */
uint32_t gg_external_interrupt(uint8_t *page, size_t page_len, uint8_t *record, size_t record_len,
                               uint8_t *descriptor, size_t descriptor_len, uint32_t vector,
                               uint64_t *first, uint64_t *second);

/*
 * The guest leaves for a reason outside the model, such as CPUID, HLT exiting or an EPT violation: the record
 * gets root mode and recognition off, nothing else of it changes, and the answer is GG_QUIET.
 * No page is handed over, since none changes; an entry event takes the guest back in.
 * The other answer is GG_REFUSED with the refusal in first, and the record keeps every byte:
 *   2, the record isn't 48 bytes long, a null one of length 0 among them, or has a field out of bounds;
 *   3, it is in root mode already.
 * Both numbers are always written, 0 but for a refusal's first. first and second are never null, and
 * neither lies in the record.
 */
uint32_t gg_leave(uint8_t *record, size_t record_len, uint64_t *first, uint64_t *second);

/*
 * The highest set vector of VIRR (base GG_VIRR) or VISR (base GG_VISR), or none: an empty register and bit 0
 * alone are told apart, which RVI and SVI, both 0 then, do not do. It returns GG_HIGHEST_REFUSED to
 * GG_HIGHEST_NONE and reads the page alone, any 4,096 bytes.
 * Refusals are tested in this order: 1, the page isn't 4,096 bytes long, a null one of length 0 among them;
 * 2, the base is another.
 * Both numbers are always written, 0 where the answer names none. first and second are never null, and
 * neither lies in the page.
 */
uint32_t gg_highest(const uint8_t *page, size_t page_len, uint32_t base, uint64_t *first, uint64_t *second);

/*
 * Replays a trace on a page of zeros and a fresh record, both its own, and writes what is answered as text.
 * Numbers are decimal, each line ends with a line feed, and no zero byte follows the last:
 *   a line for each record, "NUMBER ANSWER FIRST SECOND": the record's number from 1 on, its answer, GG_REFUSED
 *     to GG_QUIET, and the answer's two numbers; controls are GG_QUIET in either mode;
 *   then "done COUNT", the number of these lines: the trace has ended, or it has had limit records, whatever
 *     follows them;
 *   or "bad NUMBER", the number of the first record that can't be read: it is cut short, its kind is unknown,
 *     its length isn't its kind's, or an unused flag bit is set. A record that can be read and has a field out
 *     of bounds is refused by GG_REFUSED_BOUNDS and has its line.
 * A trace without the version byte, with another one, or above GG_TRACE_LENGTH bytes gives "bad 0" alone.
 * An entry brings the controls of the last record of controls, all zero before the first.
 * It returns one of two answers:
 *   GG_REPLAY_WRITTEN: the text stands at the start of out, its length in *written, the rest of out stays;
 *   GG_REPLAY_TOO_SHORT, out is shorter than the text: every byte of out stays, and *written is 0.
 * An out of GG_REPLAY_ROOM(limit) bytes is never too short, and the trace is gone through once; for a shorter
 * one the text is measured first.
 * A null trace or out with length 0 is as any empty one; with another length, each points to that many bytes, at
 * any address. written is never null. Nothing overlaps.
 * It stands in an archive of its own, libcapi_replay.a, and calls the C library's memset.
 */
uint32_t gg_replay(const uint8_t *trace, size_t trace_len, uint32_t limit, uint8_t *out, size_t out_len,
                   uint64_t *written);

/* An event of a kind with every other field zero; the constructors below start from it. */
static inline struct gg_event gg_event_of(uint8_t kind)
{
    struct gg_event event;
    event.kind = kind;
    event.size = 0;
    event.flags = 0;
    event.detail = 0;
    event.number = 0;
    event.value = 0;
    for (int word = 0; word < 4; word++)
        event.eoi_exit[word] = 0;
    return event;
}

/* VM entry with its controls and notification vector 0; eoi_exit is four words, or null for no EOI-exit bit. */
static inline struct gg_event gg_entry(uint32_t controls, uint32_t threshold, const uint64_t *eoi_exit)
{
    struct gg_event event = gg_event_of(GG_ENTRY);
    event.number = threshold;
    event.value = controls;
    for (int word = 0; eoi_exit && word < 4; word++)
        event.eoi_exit[word] = eoi_exit[word];
    return event;
}

/* VM entry with a notification vector too, as an entry with posting on needs it. */
static inline struct gg_event gg_entry_notified(uint32_t controls, uint32_t threshold, const uint64_t *eoi_exit,
                                                uint16_t notification_vector)
{
    struct gg_event event = gg_entry(controls, threshold, eoi_exit);
    event.value |= (uint64_t)notification_vector << 32;
    return event;
}

/* A request of a vector 0 to 255, in root mode. */
static inline struct gg_event gg_request(uint32_t vector)
{
    struct gg_event event = gg_event_of(GG_REQUEST);
    event.number = vector;
    return event;
}

/* A guest read of, or fetch from, the APIC-access page, by its first byte's offset 0 to 4095. */
static inline struct gg_event gg_memory_read(uint32_t offset, uint8_t size, uint8_t flags)
{
    struct gg_event event = gg_event_of(GG_MEMORY_READ);
    event.size = size;
    event.flags = flags;
    event.number = offset;
    return event;
}

/* A guest write to the APIC-access page. The value is not cut: one that does not fit the size is refused. */
static inline struct gg_event gg_memory_write(uint32_t offset, uint8_t size, uint64_t value, uint8_t flags)
{
    struct gg_event event = gg_memory_read(offset, size, flags);
    event.kind = GG_MEMORY_WRITE;
    event.value = value;
    return event;
}

/* MOV to CR8 of a value 0 to 15 from a general register. */
static inline struct gg_event gg_to_cr8(uint64_t value, uint8_t source)
{
    struct gg_event event = gg_event_of(GG_TO_CR8);
    event.detail = source;
    event.value = value;
    return event;
}

/* MOV from CR8 to a general register. */
static inline struct gg_event gg_from_cr8(uint8_t target)
{
    struct gg_event event = gg_event_of(GG_FROM_CR8);
    event.detail = target;
    return event;
}

/* RDMSR of an index. */
static inline struct gg_event gg_rdmsr(uint32_t index)
{
    struct gg_event event = gg_event_of(GG_RDMSR);
    event.number = index;
    return event;
}

/* WRMSR of a value to an index. */
static inline struct gg_event gg_wrmsr(uint32_t index, uint64_t value)
{
    struct gg_event event = gg_event_of(GG_WRMSR);
    event.number = index;
    event.value = value;
    return event;
}

/* An instruction boundary, where an interrupt may come in. */
static inline struct gg_event gg_boundary(uint8_t flags, uint8_t activity)
{
    struct gg_event event = gg_event_of(GG_BOUNDARY);
    event.flags = flags;
    event.detail = activity;
    return event;
}

/* gg_step on the structures, neither of them null, with the answer and its numbers in one value. */
static inline struct gg_answer gg_run(uint8_t *page, size_t page_len, struct gg_record *record,
                                      const struct gg_event *event)
{
    struct gg_answer answer;
    answer.first = 0;
    answer.second = 0;
    answer.number = gg_step(page, page_len, (uint8_t *)record, sizeof *record, (const uint8_t *)event,
                            sizeof *event, &answer.first, &answer.second);
    return answer;
}

/* gg_external_interrupt on a record that isn't null, with the answer and its numbers in one value. */
static inline struct gg_answer gg_run_external_interrupt(uint8_t *page, size_t page_len,
                                                         struct gg_record *record, uint8_t *descriptor,
                                                         size_t descriptor_len, uint32_t vector)
{
    struct gg_answer answer;
    answer.first = 0;
    answer.second = 0;
    answer.number = gg_external_interrupt(page, page_len, (uint8_t *)record, sizeof *record, descriptor,
                                          descriptor_len, vector, &answer.first, &answer.second);
    return answer;
}

/* gg_leave on a record that isn't null, with the answer and its numbers in one value. */
static inline struct gg_answer gg_run_leave(struct gg_record *record)
{
    struct gg_answer answer;
    answer.first = 0;
    answer.second = 0;
    answer.number = gg_leave((uint8_t *)record, sizeof *record, &answer.first, &answer.second);
    return answer;
}

/* gg_highest with the answer and its numbers in one value. */
static inline struct gg_answer gg_run_highest(const uint8_t *page, size_t page_len, uint32_t base)
{
    struct gg_answer answer;
    answer.first = 0;
    answer.second = 0;
    answer.number = gg_highest(page, page_len, base, &answer.first, &answer.second);
    return answer;
}

/*
 * 1 where a guest's boundary with these flags and this activity does something, else 0: it is open (IF on,
 * neither blocking, active or HLT), and interrupt-window exiting is on or an interrupt is recognised.
 * Where it says 0, the boundary is quiet and changes nothing, so a simulator need not send it.
 * It looks at no mode: it speaks of a record in guest mode, and of flags and activities within bounds.
 */
static inline int gg_boundary_matters(const struct gg_record *record, uint8_t flags, uint8_t activity)
{
    int blocking = flags & (GG_BLOCKING_BY_STI | GG_BLOCKING_BY_MOV_SS);
    int open = (flags & GG_IF) && !blocking && (activity == GG_ACTIVE || activity == GG_HLT);
    return open && ((record->flags & GG_INTERRUPT_WINDOW_EXITING) || record->recognised);
}

/*
 * Posts a vector into a descriptor of 64 bytes: sets its request bit, then the outstanding bit. It returns 1
 * where the outstanding bit was 0 before: the poster then sends the notification. Else it returns 0: one is
 * under way already. It isn't atomic either: it is for a caller that has the descriptor to itself.
 */
static inline int gg_post(uint8_t *descriptor, uint8_t vector)
{
    descriptor[vector / 8] = (uint8_t)(descriptor[vector / 8] | 1u << vector % 8);
    int notify = !(descriptor[32] & 1);
    descriptor[32] = (uint8_t)(descriptor[32] | 1u);
    return notify;
}

/* A 32-bit register of a page, read as gg_step reads it; the offset is at most FFCH. */
static inline uint32_t gg_word(const uint8_t *page, uint32_t offset)
{
    return (uint32_t)page[offset] | (uint32_t)page[offset + 1] << 8 | (uint32_t)page[offset + 2] << 16 |
           (uint32_t)page[offset + 3] << 24;
}

/* Whether a vector's bit is set in VISR (GG_VISR) or VIRR (GG_VIRR). */
static inline int gg_vector_is_set(const uint8_t *page, uint32_t base, uint8_t vector)
{
    return (int)(gg_word(page, base + 16u * (vector / 32u)) >> (vector % 32u) & 1u);
}

/*
 * A trace in the making, in a buffer of the caller's. A simulator starts it where its processor is fresh and
 * records each event beside gg_step, by gg_trace_event; bytes and length are then what gg_replay takes.
 * Each function that adds a record returns 1. It returns 0 and leaves every byte of the buffer where the record
 * has no room there or within GG_TRACE_LENGTH bytes, or where the format can't hold it: a control above 8, a
 * notification vector, an offset above FFFFH, a CR8 value or a vector above 255, an unused flag bit, an unknown
 * kind. What the format can hold is recorded, out of bounds or not.
 * gg_external_interrupt and gg_leave have no record, and neither has a store to page or record by the caller.
 * Where one of these has changed something, the trace is no longer that of the session.
 */
struct gg_trace {
    uint8_t *bytes;  /* the buffer */
    size_t capacity; /* how many of its bytes the trace may have */
    size_t length;   /* how many it has, the version byte among them */
    size_t controls; /* where the body of the last controls stands, 0 before the first */
};

/* Starts a trace by its version byte. A buffer of length 0, null or not, takes neither it nor a record. */
static inline struct gg_trace gg_trace_start(uint8_t *buffer, size_t buffer_len)
{
    struct gg_trace trace;
    trace.bytes = buffer;
    trace.capacity = buffer_len < GG_TRACE_LENGTH ? buffer_len : (size_t)GG_TRACE_LENGTH;
    trace.length = 0;
    trace.controls = 0;
    if (buffer_len > 0)
        trace.bytes[trace.length++] = GG_TRACE_VERSION;
    return trace;
}

/* Whether so many bytes more have room. */
static inline int gg_trace_has_room(const struct gg_trace *trace, size_t count)
{
    return count <= trace->capacity - trace->length;
}

/* Writes the low bytes of a number, the highest of them first. */
static inline void gg_trace_number(uint8_t *to, int count, uint64_t number)
{
    for (; count > 0; count--, number >>= 8)
        to[count - 1] = (uint8_t)number;
}

/* Adds a record by its body, whatever that holds and however long it is. */
static inline int gg_trace_body(struct gg_trace *trace, const uint8_t *body, size_t body_len)
{
    if (body_len > GG_TRACE_LENGTH || !gg_trace_has_room(trace, 2 + body_len))
        return 0;
    gg_trace_number(trace->bytes + trace->length, 2, body_len);
    trace->length += 2;
    for (size_t i = 0; i < body_len; i++)
        trace->bytes[trace->length++] = body[i];
    return 1;
}

/* Writes the body of controls; eoi_exit as in gg_entry. */
static inline void gg_trace_controls_body(uint8_t *body, uint32_t controls, uint32_t threshold,
                                          const uint64_t *eoi_exit)
{
    body[0] = GG_TRACE_CONTROLS;
    gg_trace_number(body + 1, 2, controls);
    gg_trace_number(body + 3, 4, threshold);
    for (int word = 0; word < 4; word++)
        gg_trace_number(body + 7 + 8 * word, 8, eoi_exit ? eoi_exit[word] : 0);
}

/* The controls of later entries, until others are recorded; they are no event of the model. */
static inline int gg_trace_controls(struct gg_trace *trace, uint32_t controls, uint32_t threshold,
                                    const uint64_t *eoi_exit)
{
    uint8_t body[GG_TRACE_CONTROLS_LENGTH];
    gg_trace_controls_body(body, controls, threshold, eoi_exit);
    if (controls > GG_TRACE_ALL_CONTROLS || !gg_trace_body(trace, body, sizeof body))
        return 0;
    trace->controls = trace->length - sizeof body;
    return 1;
}

/* An entry with the controls recorded last, all zero before the first. */
static inline int gg_trace_entry(struct gg_trace *trace)
{
    const uint8_t body[] = {GG_ENTRY};
    return gg_trace_body(trace, body, sizeof body);
}

/* The others take what the constructors of their events take. */
static inline int gg_trace_request(struct gg_trace *trace, uint32_t vector)
{
    const uint8_t body[] = {GG_REQUEST, (uint8_t)vector};
    return vector <= 0xFF && gg_trace_body(trace, body, sizeof body);
}

/* Whether offset and flags of a memory access can be held. */
static inline int gg_trace_holds_access(uint32_t offset, uint8_t flags)
{
    return offset <= 0xFFFF && flags <= (GG_INSTRUCTION_FETCH | GG_ALREADY_VIRTUALISED);
}

static inline int gg_trace_memory_read(struct gg_trace *trace, uint32_t offset, uint8_t size, uint8_t flags)
{
    const uint8_t body[] = {GG_MEMORY_READ, (uint8_t)(offset >> 8), (uint8_t)offset, size, flags};
    return gg_trace_holds_access(offset, flags) && gg_trace_body(trace, body, sizeof body);
}

static inline int gg_trace_memory_write(struct gg_trace *trace, uint32_t offset, uint8_t size, uint64_t value,
                                        uint8_t flags)
{
    uint8_t body[13] = {GG_MEMORY_WRITE, (uint8_t)(offset >> 8), (uint8_t)offset, size, flags};
    gg_trace_number(body + 5, 8, value);
    return gg_trace_holds_access(offset, flags) && gg_trace_body(trace, body, sizeof body);
}

static inline int gg_trace_to_cr8(struct gg_trace *trace, uint64_t value, uint8_t source)
{
    const uint8_t body[] = {GG_TO_CR8, (uint8_t)value, source};
    return value <= 0xFF && gg_trace_body(trace, body, sizeof body);
}

static inline int gg_trace_from_cr8(struct gg_trace *trace, uint8_t target)
{
    const uint8_t body[] = {GG_FROM_CR8, target};
    return gg_trace_body(trace, body, sizeof body);
}

static inline int gg_trace_rdmsr(struct gg_trace *trace, uint32_t index)
{
    uint8_t body[5] = {GG_RDMSR};
    gg_trace_number(body + 1, 4, index);
    return gg_trace_body(trace, body, sizeof body);
}

static inline int gg_trace_wrmsr(struct gg_trace *trace, uint32_t index, uint64_t value)
{
    uint8_t body[13] = {GG_WRMSR};
    gg_trace_number(body + 1, 4, index);
    gg_trace_number(body + 5, 8, value);
    return gg_trace_body(trace, body, sizeof body);
}

static inline int gg_trace_boundary(struct gg_trace *trace, uint8_t flags, uint8_t activity)
{
    const uint8_t body[] = {GG_BOUNDARY, flags, activity};
    return flags <= (GG_IF | GG_BLOCKING_BY_STI | GG_BLOCKING_BY_MOV_SS) &&
           gg_trace_body(trace, body, sizeof body);
}

/* Whether the controls recorded last have this body. */
static inline int gg_trace_last_controls_are(const struct gg_trace *trace, const uint8_t *body)
{
    size_t same = 0;
    while (trace->controls && same < GG_TRACE_CONTROLS_LENGTH &&
           trace->bytes[trace->controls + same] == body[same])
        same++;
    return same == GG_TRACE_CONTROLS_LENGTH;
}

/* An entry event: its controls, but where they are those recorded last, then the entry; both or neither. */
static inline int gg_trace_entry_event(struct gg_trace *trace, const struct gg_event *event)
{
    uint8_t body[GG_TRACE_CONTROLS_LENGTH];
    uint32_t controls = (uint32_t)event->value;
    gg_trace_controls_body(body, controls, event->number, event->eoi_exit);
    if (event->value > GG_TRACE_ALL_CONTROLS)
        return 0;
    if (gg_trace_last_controls_are(trace, body))
        return gg_trace_entry(trace);
    return gg_trace_has_room(trace, 2 + sizeof body + 2 + 1) &&
           gg_trace_controls(trace, controls, event->number, event->eoi_exit) && gg_trace_entry(trace);
}

/* Records an event as gg_step gets it; a field that the kind does not name is ignored. */
static inline int gg_trace_event(struct gg_trace *trace, const struct gg_event *event)
{
    switch (event->kind) {
    case GG_ENTRY:
        return gg_trace_entry_event(trace, event);
    case GG_MEMORY_READ:
        return gg_trace_memory_read(trace, event->number, event->size, event->flags);
    case GG_MEMORY_WRITE:
        return gg_trace_memory_write(trace, event->number, event->size, event->value, event->flags);
    case GG_TO_CR8:
        return gg_trace_to_cr8(trace, event->value, event->detail);
    case GG_FROM_CR8:
        return gg_trace_from_cr8(trace, event->detail);
    case GG_RDMSR:
        return gg_trace_rdmsr(trace, event->number);
    case GG_WRMSR:
        return gg_trace_wrmsr(trace, event->number, event->value);
    case GG_BOUNDARY:
        return gg_trace_boundary(trace, event->flags, event->detail);
    case GG_REQUEST:
        return gg_trace_request(trace, event->number);
    default:
        return 0;
    }
}

#ifdef __cplusplus
}
#endif

#endif
