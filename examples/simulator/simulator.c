/*
 * A camera platform in small: a guest driver wakes its tuner by a self-IPI, executes CPUID, which
 * leaves the guest without the model, and is nested over by a frame-end interrupt; all are retired.
 * Then a driver made from an outdated register map sends the same wake-up call with bit 13 set,
 * and the hypervisor gets it instead.
 * Then a second sensor raises a line whose table entry nobody has programmed: vector 00H is requested,
 * RVI stays 00H, and only the question for the highest request tells that from no request at all.
 * Last, a storage device posts two completions to a running guest: one notification brings both in, the
 * higher one first, and the guest doesn't leave for them.
 */
#include "garlandgrid.h"

#include <inttypes.h>
#include <stdio.h>
#include <string.h>

enum {
    WAKE_UP = 0x61,        /* the tuner's wake-up call; its handler arms black level clamp */
    FRAME_END = 0x82,      /* the sensor's frame end, of a higher class */
    STATISTICS = 0x68,     /* of the wake-up call's own class, so it has to wait */
    UNPROGRAMMED = 0x00,   /* what a line table entry says that nobody has programmed */
    READ_DONE = 0x31,      /* the storage device's completion of a read */
    WRITE_DONE = 0x71,     /* and of a write, of a higher class */
    OTHER_LINE = 0x55,     /* a device that doesn't post */
    NOTIFICATION = 0xF2,   /* the notification vector */
    TO_SELF = 0x00040000,  /* VICR_LO: fixed, edge, shorthand "self" */
    STALE_BIT = 0x00002000 /* bit 13, spare in the outdated map */
};

/* One virtual processor: all that the model keeps between events. */
static uint8_t page[GG_PAGE_LENGTH];
static struct gg_record record;

/* Where the storage device posts; one thread runs device and core, so either has it to itself. */
static uint8_t descriptor[GG_DESCRIPTOR_LENGTH];

static int clamp_armed;
static unsigned deliveries, exits;

static void print_answer(struct gg_answer answer)
{
    switch (answer.number) {
    case GG_REFUSED:
        printf("refused (0), refusal %" PRIu64 ", entry check %" PRIu64, answer.first, answer.second);
        break;
    case GG_REDIRECTED:
        printf("redirected (1), value %02" PRIX64 "H", answer.first);
        break;
    case GG_PASSTHROUGH:
        printf("passthrough (2)");
        break;
    case GG_FAULT:
        printf("general-protection fault (3)");
        break;
    case GG_VM_EXIT:
        printf("VM exit (4), reason %" PRIu64 ", qualification %03" PRIX64 "H", answer.first, answer.second);
        break;
    case GG_DELIVERED:
        printf("delivered (5), vector %02" PRIX64 "H", answer.first);
        break;
    default:
        printf("quiet (6)");
    }
}

/* What the question answers: bit 0 alone is 00H, an empty register is none. */
static void print_highest(struct gg_answer highest)
{
    switch (highest.number) {
    case GG_HIGHEST_VECTOR:
        printf("%02" PRIX64 "H", highest.first);
        break;
    case GG_HIGHEST_NONE:
        printf("none");
        break;
    default:
        printf("refused, refusal %" PRIu64, highest.first);
    }
}

/* A register's highest vector, and those below it from the top down. */
static void print_vectors(const char *name, uint32_t base)
{
    struct gg_answer highest = gg_run_highest(page, sizeof page, base);
    printf("%s ", name);
    print_highest(highest);
    for (uint64_t vector = highest.number == GG_HIGHEST_VECTOR ? highest.first : 0; vector-- > 0;)
        if (gg_vector_is_set(page, base, (uint8_t)vector))
            printf(", then %02" PRIX64 "H", vector);
}

/* The posted vectors from the top down, and the outstanding bit. */
static void print_descriptor(void)
{
    const char *before = "";
    printf("    posted ");
    for (unsigned vector = 256; vector-- > 0;)
        if (descriptor[vector / 8] >> vector % 8 & 1) {
            printf("%s%02XH", before, vector);
            before = ", then ";
        }
    printf("%s; outstanding bit %d\n", *before ? "" : "none", descriptor[32] & 1);
}

/* Prints in words and numbers what has just been carried out. */
static struct gg_answer show(const char *words, struct gg_answer answer)
{
    printf("%s\n    ", words);
    print_answer(answer);
    printf("\n    %s, RVI %02XH, SVI %02XH, VPPR %02" PRIX32 "H%s\n    ",
           record.mode == GG_GUEST ? "guest" : "root", record.rvi, record.svi, gg_word(page, GG_VPPR),
           record.recognised ? ", an interrupt is recognised" : "");
    print_vectors("highest request", GG_VIRR);
    print_vectors("; highest in service", GG_VISR);
    printf("\n");
    deliveries += answer.number == GG_DELIVERED;
    exits += answer.number == GG_VM_EXIT;
    if (answer.number == GG_DELIVERED && answer.first == WAKE_UP) {
        clamp_armed = 1;
        printf("    the tuner's handler arms black level clamp\n");
    }
    return answer;
}

/* Carries out one event. */
static struct gg_answer step(const char *words, struct gg_event event)
{
    return show(words, gg_run(page, sizeof page, &record, &event));
}

/* What every guest here runs with. */
static const uint32_t controls = GG_USE_TPR_SHADOW | GG_VIRTUALIZE_APIC_ACCESSES |
                                 GG_VIRTUAL_INTERRUPT_DELIVERY | GG_EXTERNAL_INTERRUPT_EXITING;

static struct gg_event enter(void)
{
    return gg_entry(controls, 0, NULL);
}

/* Posting asks for acknowledgement too, by entry check 5. */
static struct gg_event enter_posting(void)
{
    uint32_t posting = GG_PROCESS_POSTED_INTERRUPTS | GG_ACKNOWLEDGE_INTERRUPT_ON_EXIT;
    return gg_entry_notified(controls | posting, 0, NULL, NOTIFICATION);
}

/* An instruction of the guest: CPUID, or a store to the APIC-access page. */
struct instruction {
    const char *words;
    enum { CPUID, STORE } operation;
    uint32_t offset, value;
};

static void execute(const struct instruction *instruction)
{
    if (instruction->operation == CPUID) {
        show(instruction->words, gg_run_leave(&record));
        printf("    the hypervisor emulates the instruction\n");
        return;
    }
    struct gg_answer answer = step(instruction->words,
                                   gg_memory_write(instruction->offset, 4, instruction->value, 0));
    if (answer.number == GG_VM_EXIT && answer.first == GG_EXIT_APIC_WRITE)
        printf("    nothing is requested: the write is the hypervisor's to handle, and this one drops it\n");
}

/* The way back where the guest has left, and the boundary after it. */
static void go_on(void)
{
    if (record.mode == GG_ROOT)
        step("The hypervisor enters the guest again.", enter());
    if (gg_boundary_matters(&record, GG_IF, GG_ACTIVE))
        step("The boundary after it is open and matters.", gg_boundary(GG_IF, GG_ACTIVE));
    else
        printf("    the boundary after it does nothing and isn't sent\n");
}

/* The instruction loop: an instruction and what follows it. */
static void run(const struct instruction *code, size_t count)
{
    for (size_t i = 0; i < count; i++) {
        execute(&code[i]);
        go_on();
    }
}

/* The call as the current register map has it. */
static void current_driver(void)
{
    static const struct instruction code[] = {
        {"The driver writes 00040061H to VICR_LO: the tuner's wake-up call.", STORE, GG_VICR_LO,
         TO_SELF | WAKE_UP},
        {"In the handler, statistics of the same class ask for service.", STORE, GG_VICR_LO,
         TO_SELF | STATISTICS},
        {"The handler executes CPUID, which leaves the guest; the statistics stay requested.", CPUID, 0, 0},
        {"The sensor's frame end asks for service, of a higher class.", STORE, GG_VICR_LO,
         TO_SELF | FRAME_END},
        {"The frame-end handler writes EOI.", STORE, GG_VEOI, 0},
        {"The wake-up handler writes EOI; the statistics' turn has come.", STORE, GG_VEOI, 0},
        {"Their handler writes EOI.", STORE, GG_VEOI, 0},
    };
    printf("A driver made from the current register map\n\n");
    run(code, sizeof code / sizeof code[0]);
    printf("\nBlack level clamp is %s.\n\n", clamp_armed ? "armed" : "not armed");
}

/* The same call with bit 13 set, which the hardware leaves to the hypervisor. */
static void outdated_driver(void)
{
    static const struct instruction code[] = {
        {"The driver writes 00042061H to VICR_LO: the same call, bit 13 set.", STORE, GG_VICR_LO,
         TO_SELF | STALE_BIT | WAKE_UP},
    };
    printf("A driver made from a map in which bit 13 is spare\n\n");
    clamp_armed = 0;
    run(code, sizeof code / sizeof code[0]);
    printf("\nBlack level clamp is %s.\n\n",
           clamp_armed ? "armed" : "not armed by hardware: grey night pictures");
}

/* A line whose table entry says 00H: RVI doesn't tell its request from none, the question does. */
static void unprogrammed_line(void)
{
    printf("A second sensor whose line table entry nobody has programmed\n\n");
    show("The second sensor raises its line: an external interrupt takes the guest out.",
         gg_run_leave(&record));
    uint8_t rvi = record.rvi;
    struct gg_answer before = gg_run_highest(page, sizeof page, GG_VIRR);
    step("The line's table entry says 00H, and the hypervisor requests that.", gg_request(UNPROGRAMMED));
    go_on();
    struct gg_answer after = gg_run_highest(page, sizeof page, GG_VIRR);
    printf("\nRVI was %02XH and is %02XH; the highest request was ", rvi, record.rvi);
    print_highest(before);
    printf(" and is ");
    print_highest(after);
    int requested = before.number == GG_HIGHEST_NONE && after.number == GG_HIGHEST_VECTOR;
    printf(".\n%s.\n", requested ? "The line was raised; its table entry is what is missing"
                                 : "Nothing has come from the line");
}

/* The device posts a vector; 1 where it then sends the notification. */
static int post(const char *words, uint8_t vector)
{
    int notify = gg_post(descriptor, vector);
    printf("%s\n    the outstanding bit was %s\n", words,
           notify ? "0: it sends the notification" : "1: it sends none");
    print_descriptor();
    return notify;
}

/* An external interrupt arrives while the guest runs. */
static void external_interrupt(const char *words, uint32_t vector)
{
    struct gg_answer answer = show(words, gg_run_external_interrupt(page, sizeof page, &record, descriptor,
                                                                    sizeof descriptor, vector));
    print_descriptor();
    if (answer.number == GG_PASSTHROUGH)
        printf("    the guest's own IDT gets it\n");
    else if (answer.number == GG_VM_EXIT)
        printf("    the hypervisor gets it\n");
}

/* Two completions are posted; the core gets as many notifications as the device sends. */
static int complete(void)
{
    int sent = post("The storage device posts 31H: a read is done.", READ_DONE);
    sent += post("It posts 71H: a write is done.", WRITE_DONE);
    for (int arrived = 0; arrived < sent; arrived++)
        external_interrupt("The notification arrives, external interrupt F2H.", NOTIFICATION);
    go_on();
    return sent;
}

/* Posting brings two vectors into the running guest; the vector of another device takes it out. */
static void storage_device(void)
{
    static const struct instruction code[] = {
        {"The write's handler writes EOI; the read's turn has come.", STORE, GG_VEOI, 0},
        {"The read's handler writes EOI.", STORE, GG_VEOI, 0},
    };
    printf("\nA storage device that posts to the running guest\n\n");
    step("The hypervisor enters a guest on a fresh processor, posting on, notification vector F2H.",
         enter_posting());
    deliveries = exits = 0;
    int sent = complete();
    run(code, sizeof code / sizeof code[0]);
    unsigned exits_for_storage = exits;
    external_interrupt("Another device raises its line, external interrupt 55H.", OTHER_LINE);
    printf("\nFor the storage: notifications %d, deliveries %u, exits %u.\n", sent, deliveries,
           exits_for_storage);
    printf("The guest %s for it.\n", exits_for_storage ? "left" : "never left");
}

/* A fresh processor: a page of zeros and the record that gg_fresh writes; 0 where that is refused. */
static int start(void)
{
    memset(page, 0, sizeof page);
    return gg_fresh((uint8_t *)&record, sizeof record) == GG_QUIET;
}

int main(void)
{
    if (!start())
        return 1;
    step("The hypervisor enters the guest.", enter());
    printf("\n");
    current_driver();
    outdated_driver();
    unprogrammed_line();
    if (!start())
        return 1;
    storage_device();
    return 0;
}
