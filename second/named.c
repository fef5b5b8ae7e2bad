/* Named cases; expected numbers are the documents', those of leave, question and bytes the header's. */
#include "named.h"

#include "edge.h"
#include "generate.h"

#include <stdio.h>
#include <string.h>

#define OPEN_BOUNDARY gg_boundary(GG_IF, GG_ACTIVE)

/* The word of a register that holds a vector's bit. */
#define VISR_60 0x130
#define VIRR_60 0x230

static void write_icr(struct stage *s, uint32_t value)
{
    stage_step(s, gg_memory_write(GG_VICR_LO, 4, value, 0));
}

static void write_eoi(struct stage *s)
{
    stage_step(s, gg_memory_write(GG_VEOI, 4, 0, 0));
}

/* The events of K1 before its boundary, under the given controls. */
static void before_k1(struct stage *s, uint32_t controls)
{
    stage_fresh(s);
    stage_step(s, gg_request(0x60));
    expect_quiet(s);
    stage_step(s, gg_entry(controls, 0, NULL));
    expect_quiet(s);
}

/* The events of K1 up to its boundary, whose answer is left to the caller. */
static void after_k1(struct stage *s, uint32_t controls)
{
    before_k1(s, controls);
    stage_step(s, OPEN_BOUNDARY);
}

static void k1(struct stage *s)
{
    after_k1(s, CONTROLS_V);
    expect_answer(s, GG_DELIVERED, 0x60, 0);
    expect_word(s, VISR_60, 1);
    expect_word(s, VIRR_60, 0);
    expect_svi(s, 0x60);
    expect_word(s, GG_VPPR, 0x60);
    expect_rvi(s, 0);
}

static void after_k2(struct stage *s)
{
    after_k1(s, CONTROLS_M);
    write_icr(s, 0x00040071);
    expect_quiet(s);
    stage_step(s, OPEN_BOUNDARY);
}

static void k2(struct stage *s)
{
    after_k2(s);
    expect_answer(s, GG_DELIVERED, 0x71, 0);
    expect_word(s, VISR_60, 0x00020001);
    expect_word(s, GG_VPPR, 0x70);
}

static void k3(struct stage *s)
{
    after_k2(s);
    write_eoi(s);
    expect_quiet(s);
    expect_svi(s, 0x60);
    expect_word(s, GG_VPPR, 0x60);
}

static void k4(struct stage *s)
{
    after_k1(s, CONTROLS_M);
    write_icr(s, 0x00040065);
    expect_quiet(s);
    expect_rvi(s, 0x65);
    expect_recognised(s, 0);
}

static void k5(struct stage *s)
{
    after_k1(s, CONTROLS_M);
    write_icr(s, 0x00042071);
    expect_answer(s, GG_VM_EXIT, 56, 0x300);
    expect_mode(s, GG_ROOT);
    for (uint32_t row = 0; row < 8; row++)
        expect_word(s, GG_VIRR + 16 * row, 0);
    expect_word(s, GG_VICR_LO, 0x00042071);
}

static void k6(struct stage *s)
{
    static const uint32_t values[] = {0x00040871, 0x00044071};
    for (int i = 0; i < 2; i++) {
        after_k1(s, CONTROLS_M);
        write_icr(s, values[i]);
        expect_quiet(s);
        expect_rvi(s, 0x71);
        expect_recognised(s, 1);
        expect_word(s, VIRR_60, 0x00020000);
    }
}

static void k7(struct stage *s)
{
    after_k1(s, CONTROLS_M);
    write_icr(s, 0x0004000F);
    expect_answer(s, GG_VM_EXIT, 56, 0x300);
    after_k1(s, CONTROLS_M);
    write_icr(s, 0x00040010);
    expect_quiet(s);
    expect_rvi(s, 0x10);
}

/* PPR virtualization alone: a TPR write with VID does it, and VTPR is the value written. */
static void k8(struct stage *s)
{
    stage_guest(s, CONTROLS_M);
    stage_set_priority(s, 0, 0x60);
    stage_step(s, gg_memory_write(GG_VTPR, 4, 0x6F, 0));
    expect_quiet(s);
    expect_word(s, GG_VPPR, 0x6F);
    stage_guest(s, CONTROLS_M);
    stage_set_priority(s, 0, 0x63);
    stage_step(s, gg_memory_write(GG_VTPR, 4, 0x5F, 0));
    expect_quiet(s);
    expect_word(s, GG_VPPR, 0x60);
}

static void k9(struct stage *s)
{
    for (uint64_t value = 4; value <= 5; value++) {
        stage_guest(s, GG_USE_TPR_SHADOW);
        stage_set_threshold(s, 5);
        stage_set_priority(s, 0x50, 0);
        stage_step(s, gg_to_cr8(value, 0));
        if (value == 4)
            expect_answer(s, GG_VM_EXIT, 43, 0);
        else
            expect_quiet(s);
        expect_word(s, GG_VTPR, (uint32_t)(16 * value));
    }
}

static void k10(struct stage *s)
{
    stage_guest(s, CONTROLS_R);
    stage_set_priority(s, 0x5C000000, 0);
    stage_step(s, gg_memory_read(0x083, 1, 0));
    expect_answer(s, GG_REDIRECTED, 0x5C, 0);
    stage_guest(s, CONTROLS_M);
    stage_set_priority(s, 0x5C000000, 0);
    stage_step(s, gg_memory_read(0x083, 1, 0));
    expect_answer(s, GG_VM_EXIT, 44, 0x083);
}

static void k11(struct stage *s)
{
    stage_guest(s, CONTROLS_R);
    stage_step(s, gg_memory_write(0x082, 2, 0xABCD, 0));
    expect_answer(s, GG_VM_EXIT, 56, 0x082);
    expect_word(s, GG_VTPR, 0xABCD0000);
    stage_guest(s, CONTROLS_R);
    stage_step(s, gg_memory_write(0x0A0, 4, 0x70, 0));
    expect_answer(s, GG_VM_EXIT, 44, 0x10A0);
    expect_word(s, GG_VPPR, 0);
}

static void k12(struct stage *s)
{
    stage_fresh(s);
    stage_step(s, gg_request(0));
    expect_quiet(s);
    stage_step(s, gg_entry(CONTROLS_V, 0, NULL));
    expect_quiet(s);
    expect_word(s, GG_VIRR, 1);
    expect_rvi(s, 0);
    expect_recognised(s, 0);
}

#define SHADOW_AND_ACCESSES (GG_USE_TPR_SHADOW | GG_VIRTUALIZE_APIC_ACCESSES)
#define SHADOW_AND_X2APIC (GG_USE_TPR_SHADOW | GG_VIRTUALIZE_X2APIC_MODE)
#define FAILS(check) GG_REFUSED, GG_REFUSED_ENTRY_CHECK, check

/* Both sides of E2: entries at VTPR 4F, by their controls and by the threshold against class 4. */
static const struct e2_row {
    uint32_t controls, threshold, answer, first, second;
} e2_rows[] = {
    {GG_USE_TPR_SHADOW, 5, FAILS(GG_CHECK_TPR_BELOW_THRESHOLD)},
    {SHADOW_AND_ACCESSES, 5, GG_VM_EXIT, GG_EXIT_TPR_BELOW_THRESHOLD, 0},
    {GG_USE_TPR_SHADOW, 4, GG_QUIET, 0, 0},
    {SHADOW_AND_ACCESSES, 4, GG_QUIET, 0, 0},
    {GG_USE_TPR_SHADOW, 16, FAILS(GG_CHECK_TPR_THRESHOLD)},
    {SHADOW_AND_ACCESSES, 16, FAILS(GG_CHECK_TPR_THRESHOLD)},
    {CONTROLS_V, 5, GG_QUIET, 0, 0},
    {CONTROLS_M, 5, GG_QUIET, 0, 0},
    {0, 5, GG_QUIET, 0, 0},
    {GG_VIRTUALIZE_APIC_ACCESSES, 5, GG_QUIET, 0, 0},
    {SHADOW_AND_X2APIC, 5, FAILS(GG_CHECK_TPR_BELOW_THRESHOLD)},
};

/* A refused entry leaves everything; any other has its controls in the record, a quiet one in guest mode. */
static void e2_entry(struct stage *s, const struct e2_row *row)
{
    stage_fresh(s);
    stage_set_priority(s, 0x4F, 0x31);
    stage_set_threshold(s, 3);
    struct trial kept = s->now;
    stage_step(s, gg_entry(row->controls, row->threshold, NULL));
    expect_answer(s, row->answer, row->first, row->second);
    if (row->answer == GG_REFUSED) {
        expect_record(s, &kept);
        expect_page(s, &kept);
        return;
    }
    struct gg_record record = trial_record(&s->now);
    bool taken = record.flags == row->controls && record.threshold == row->threshold;
    expect_true(s, taken, "the entry's controls in the record");
    expect_mode(s, row->answer == GG_QUIET ? GG_GUEST : GG_ROOT);
}

static void e2(struct stage *s)
{
    for (size_t i = 0; i < sizeof e2_rows / sizeof e2_rows[0]; i++)
        e2_entry(s, &e2_rows[i]);
}

static void k3_with_exit(struct stage *s)
{
    after_k2(s);
    stage_set_eoi_exit(s, 0x71);
    write_eoi(s);
    expect_answer(s, GG_VM_EXIT, 45, 0x71);
    expect_svi(s, 0x60);
    expect_mode(s, GG_ROOT);
}

static void eoi_of_nothing(struct stage *s)
{
    stage_guest(s, CONTROLS_M);
    struct trial kept = s->now;
    write_eoi(s);
    expect_quiet(s);
    expect_svi(s, 0);
    expect_page(s, &kept);
}

static void bochs_1(struct stage *s)
{
    static const uint16_t offsets[] = {GG_VEOI, GG_VICR_LO};
    for (int i = 0; i < 2; i++) {
        stage_guest(s, CONTROLS_M);
        trial_put_word(&s->now, offsets[i], 0x12345678);
        stage_step(s, gg_memory_read(offsets[i], 4, 0));
        expect_answer(s, GG_REDIRECTED, 0x12345678, 0);
        expect_mode(s, GG_GUEST);
    }
}

static void bochs_2(struct stage *s)
{
    static const uint16_t bases[] = {GG_VEOI, GG_VICR_LO};
    for (uint32_t i = 0; i < 6; i++) {
        uint32_t offset = bases[i / 3] + 1 + i % 3;
        stage_guest(s, CONTROLS_M);
        struct trial kept = s->now;
        stage_step(s, gg_memory_write(offset, 1, 0xFF, 0));
        expect_answer(s, GG_VM_EXIT, 44, 0x1000 + offset);
        expect_page(s, &kept);
    }
}

static void bochs_3(struct stage *s)
{
    stage_guest(s, CONTROLS_R);
    stage_step(s, gg_memory_read(GG_VTPR, 4, GG_INSTRUCTION_FETCH));
    expect_answer(s, GG_VM_EXIT, 44, 0x2080);
    expect_mode(s, GG_ROOT);
}

static void bochs_4(struct stage *s)
{
    stage_fresh(s);
    stage_step(s, gg_request(0x60));
    stage_step(s, gg_entry(CONTROLS_V, 0, NULL));
    stage_step(s, gg_boundary(GG_IF, GG_HLT));
    expect_answer(s, GG_DELIVERED, 0x60, 0);
    stage_guest(s, CONTROLS_V | GG_INTERRUPT_WINDOW_EXITING);
    stage_step(s, gg_boundary(GG_IF, GG_HLT));
    expect_answer(s, GG_VM_EXIT, 7, 0);
}

static void bochs_5(struct stage *s)
{
    stage_guest(s, CONTROLS_X2);
    stage_step(s, gg_wrmsr(0x83F, 0x71));
    expect_quiet(s);
    expect_word(s, 0x3F0, 0x71);
    expect_rvi(s, 0x71);
}

static void bochs_6(struct stage *s)
{
    stage_guest(s, CONTROLS_X2);
    memset(trial_page(&s->now) + GG_VEOI, 0xFF, 16);
    stage_step(s, gg_wrmsr(0x80B, 0));
    expect_quiet(s);
    expect_word(s, 0x0B0, 0);
    expect_word(s, 0x0B4, 0);
    expect_word(s, 0x0B8, 0xFFFFFFFF);
}

/* Bochs fails this entry too: the model agrees. */
static void bochs_7(struct stage *s)
{
    stage_fresh(s);
    stage_set_priority(s, 0x40, 0);
    struct trial kept = s->now;
    stage_step(s, gg_entry(GG_USE_TPR_SHADOW, 5, NULL));
    expect_answer(s, GG_REFUSED, GG_REFUSED_ENTRY_CHECK, GG_CHECK_TPR_BELOW_THRESHOLD);
    expect_record(s, &kept);
    expect_page(s, &kept);
}

/* Controls that fail several checks, with the first that fails. */
static void bochs_8(struct stage *s)
{
    const uint32_t both = GG_VIRTUALIZE_APIC_ACCESSES | GG_VIRTUALIZE_X2APIC_MODE;
    const struct {
        uint32_t controls, threshold, check;
    } rows[] = {
        {both, 0, GG_CHECK_TPR_SHADOW_OFF},
        {both | GG_VIRTUAL_INTERRUPT_DELIVERY, 16, GG_CHECK_TPR_SHADOW_OFF},
        {GG_VIRTUAL_INTERRUPT_DELIVERY, 16, GG_CHECK_TPR_SHADOW_OFF},
        {both | GG_USE_TPR_SHADOW | GG_VIRTUAL_INTERRUPT_DELIVERY, 16, GG_CHECK_BOTH_APIC_MODES},
        {both | GG_USE_TPR_SHADOW, 16, GG_CHECK_BOTH_APIC_MODES},
        {GG_USE_TPR_SHADOW | GG_VIRTUAL_INTERRUPT_DELIVERY, 16, GG_CHECK_EXTERNAL_INTERRUPTS},
        {GG_USE_TPR_SHADOW, 16, GG_CHECK_TPR_THRESHOLD},
        {GG_USE_TPR_SHADOW | CONTROLS_POSTING, 16, GG_CHECK_TPR_THRESHOLD},
        {GG_USE_TPR_SHADOW | CONTROLS_POSTING, 15, GG_CHECK_POSTED_INTERRUPTS},
        {GG_USE_TPR_SHADOW, 15, GG_CHECK_TPR_BELOW_THRESHOLD},
    };
    for (size_t i = 0; i < sizeof rows / sizeof rows[0]; i++) {
        stage_fresh(s);
        struct trial kept = s->now;
        stage_step(s, gg_entry(rows[i].controls, rows[i].threshold, NULL));
        expect_answer(s, GG_REFUSED, GG_REFUSED_ENTRY_CHECK, rows[i].check);
        expect_page(s, &kept);
    }
}

/* A request of class 0 never gets past a VPPR of 0. */
static void qemu_1(struct stage *s)
{
    stage_fresh(s);
    stage_step(s, gg_request(0x0F));
    stage_step(s, gg_entry(CONTROLS_V, 0, NULL));
    expect_recognised(s, 0);
    stage_step(s, OPEN_BOUNDARY);
    expect_quiet(s);
    expect_rvi(s, 0x0F);
}

/* A fresh record is 48 zero bytes; another length is refused and left. */
static void fresh(struct stage *s)
{
    uint8_t model[64], second[64];
    for (size_t length = 0; length <= sizeof model; length++) {
        memset(model, 0x5A, sizeof model);
        memset(second, 0x5A, sizeof second);
        uint32_t wanted = length == GG_RECORD_LENGTH ? GG_QUIET : GG_REFUSED;
        expect_true(s, gg_fresh(model, length) == wanted, "the model's answer to fresh");
        expect_true(s, second_fresh(second, length) == wanted, "the second program's answer to fresh");
        expect_true(s, !memcmp(model, second, sizeof model), "equal bytes after fresh");
        expect_true(s, model[0] == (wanted == GG_QUIET ? 0 : 0x5A), "a zero record only for 48 bytes");
    }
}

/* The guest with 60 requested and recognised, an EOI-exit bit and a threshold to keep. */
static void with_60_recognised(struct stage *s)
{
    const uint64_t exits[4] = {0, 1, 0, UINT64_C(1) << 63};
    stage_fresh(s);
    stage_step(s, gg_request(0x60));
    expect_quiet(s);
    stage_step(s, gg_entry(CONTROLS_V, 5, exits));
    expect_quiet(s);
    expect_recognised(s, 1);
}

/* A leave drops recognition and keeps the request, which the next entry recognises again. */
static void leave_recognised(struct stage *s)
{
    with_60_recognised(s);
    struct trial kept = s->now;
    struct gg_record outside = trial_record(&kept);
    outside.mode = GG_ROOT;
    outside.recognised = 0;
    trial_set_record(&kept, &outside);
    stage_leave(s);
    expect_quiet(s);
    expect_record(s, &kept);
    expect_page(s, &kept);
    stage_step(s, gg_entry(CONTROLS_V, 5, outside.eoi_exit));
    expect_recognised(s, 1);
    stage_step(s, OPEN_BOUNDARY);
    expect_answer(s, GG_DELIVERED, 0x60, 0);
}

static void leave_in_root(struct stage *s)
{
    with_60_recognised(s);
    stage_leave(s);
    struct trial kept = s->now;
    stage_leave(s);
    expect_answer(s, GG_REFUSED, GG_REFUSED_MODE, 0);
    expect_record(s, &kept);
    expect_page(s, &kept);
}

static void leave_reserved(struct stage *s)
{
    for (unsigned byte = 0; byte < 2; byte++) {
        with_60_recognised(s);
        stage_set_reserved(s, byte, 1);
        struct trial kept = s->now;
        stage_leave(s);
        expect_answer(s, GG_REFUSED, GG_REFUSED_BOUNDS, 0);
        expect_record(s, &kept);
    }
}

/* A reserved byte is refused in the record and in an entry; a value may use all eight bytes. */
static void reserved(struct stage *s)
{
    stage_guest(s, CONTROLS_X2);
    stage_step(s, gg_wrmsr(0x80B, UINT64_C(1) << 32));
    expect_answer(s, GG_FAULT, 0, 0);
    for (unsigned byte = 0; byte < 2; byte++) {
        struct gg_event entry = gg_entry(CONTROLS_V, 0, NULL);
        entry.value |= UINT64_C(1) << (48 + 8 * byte);
        stage_fresh(s);
        stage_step(s, entry);
        expect_answer(s, GG_REFUSED, GG_REFUSED_BOUNDS, 0);
        stage_set_reserved(s, byte, 1);
        struct trial kept = s->now;
        stage_step(s, gg_request(0x60));
        expect_answer(s, GG_REFUSED, GG_REFUSED_BOUNDS, 0);
        expect_record(s, &kept);
        expect_page(s, &kept);
    }
}

/* An empty register is none, also where every byte around its words is FFH. */
static void highest_of_nothing(struct stage *s)
{
    stage_fresh(s);
    expect_highest_none(s, GG_VIRR);
    expect_highest_none(s, GG_VISR);
    memset(trial_page(&s->now), 0xFF, GG_PAGE_LENGTH);
    for (uint32_t row = 0; row < 8; row++)
        trial_put_word(&s->now, GG_VIRR + 16 * row, 0);
    expect_highest_none(s, GG_VIRR);
    expect_highest(s, GG_VISR, 255);
}

/* After K12 RVI and SVI are both 0; only the question tells that 0 is requested and nothing in service. */
static void highest_of_k12(struct stage *s)
{
    k12(s);
    expect_rvi(s, 0);
    expect_svi(s, 0);
    expect_highest(s, GG_VIRR, 0);
    expect_highest_none(s, GG_VISR);
}

static void highest_of_255(struct stage *s)
{
    static const uint32_t bases[] = {GG_VIRR, GG_VISR};
    for (int i = 0; i < 2; i++) {
        stage_fresh(s);
        trial_put_vector(&s->now, bases[i], 255, true);
        expect_highest(s, bases[i], 255);
        expect_highest_none(s, bases[1 - i]);
    }
}

/* Every bit set, then every bit but 255 of VIRR. */
static void highest_of_all(struct stage *s)
{
    stage_fresh(s);
    memset(trial_page(&s->now), 0xFF, GG_PAGE_LENGTH);
    expect_highest(s, GG_VIRR, 255);
    expect_highest(s, GG_VISR, 255);
    trial_put_vector(&s->now, GG_VIRR, 255, false);
    expect_highest(s, GG_VIRR, 254);
    expect_highest(s, GG_VISR, 255);
}

/* Another base is refusal 2, another page length refusal 1, and both at once refusal 1. */
static void highest_refused(struct stage *s)
{
    static const uint32_t bases[] = {0, GG_VTPR, GG_VISR + 16, 0x180, GG_VIRR - 1, GG_VIRR + 1, 0x10200};
    stage_fresh(s);
    for (size_t i = 0; i < sizeof bases / sizeof bases[0]; i++)
        expect_highest_refused(s, bases[i], GG_REFUSED_BOUNDS);
    for (size_t i = 1; i < PAGE_LENGTHS; i++) {
        trial_set_page_length(&s->now, page_lengths[i]);
        expect_highest_refused(s, GG_VIRR, GG_REFUSED_PAGE_LENGTH);
        expect_highest_refused(s, GG_VISR, GG_REFUSED_PAGE_LENGTH);
        expect_highest_refused(s, 0, GG_REFUSED_PAGE_LENGTH);
    }
}

/* K1 under M with an EOI after it: 60 is requested, then in service, then retired. */
static void highest_in_k1(struct stage *s)
{
    before_k1(s, CONTROLS_M);
    expect_highest(s, GG_VIRR, 0x60);
    expect_highest_none(s, GG_VISR);
    stage_step(s, OPEN_BOUNDARY);
    expect_answer(s, GG_DELIVERED, 0x60, 0);
    expect_rvi(s, 0);
    expect_highest_none(s, GG_VIRR);
    expect_highest(s, GG_VISR, 0x60);
    write_eoi(s);
    expect_quiet(s);
    expect_svi(s, 0);
    expect_highest_none(s, GG_VISR);
}

static const struct named_case cases[] = {
    {"K1", k1, "request, entry, delivery of 60"},
    {"K2", k2, "a self-IPI of 71 nests over 60"},
    {"K3", k3, "EOI returns to 60"},
    {"K4", k4, "65 doesn't preempt 60"},
    {"K5", k5, "ICR bit 13 leaves the write to the hypervisor"},
    {"K6", k6, "ICR bits 11 and 14 aren't looked at"},
    {"K7", k7, "vector 0F exits, vector 10 is sent"},
    {"K8", k8, "PPR virtualization"},
    {"K9", k9, "CR8 below and at the threshold"},
    {"K10", k10, "a read of 083, which isn't 0, with and without control 3"},
    {"K11", k11, "a write of 082 is stored, one of 0A0 isn't"},
    {"K12", k12, "vector 0 is requested and not recognised"},
    {"E2", e2, "entry with a threshold above VTPR's class, and with one that it reaches"},
    {"K3-EOI-EXIT", k3_with_exit, "K3 with EOI-exit bit 71"},
    {"EOI-OF-NOTHING", eoi_of_nothing, "EOI with nothing in service"},
    {"BOCHS-1", bochs_1, "VID without control 3: reads of 0B0 and 300 are redirected"},
    {"BOCHS-2", bochs_2, "VID without control 3: writes inside 0B0 and 300 exit 44"},
    {"BOCHS-3", bochs_3, "a fetch exits 44"},
    {"BOCHS-4", bochs_4, "HLT is open for delivery and for exit 7"},
    {"BOCHS-5", bochs_5, "a self-IPI by WRMSR is stored at 3F0"},
    {"BOCHS-6", bochs_6, "WRMSR 80B stores eight bytes"},
    {"BOCHS-7", bochs_7, "entry below the threshold is check 6 without control 1"},
    {"BOCHS-8", bochs_8, "the order of the entry checks"},
    {"QEMU-1", qemu_1, "class 0 waits even where VPPR is 0"},
    {"FRESH", fresh, "the fresh record and its length"},
    {"LEAVE", leave_recognised, "a leave drops recognition and nothing else"},
    {"LEAVE-IN-ROOT", leave_in_root, "a leave in root mode is refusal 3"},
    {"LEAVE-RESERVED", leave_reserved, "a leave with a reserved byte is refusal 2"},
    {"RESERVED", reserved, "bytes 14 and 15 of a record and of an entry are 0"},
    {"HIGHEST-NONE", highest_of_nothing, "the highest vector of an empty register is none"},
    {"HIGHEST-K12", highest_of_k12, "after K12 the highest request is 00 and the highest service none"},
    {"HIGHEST-255", highest_of_255, "the highest of bit 255 alone is FF"},
    {"HIGHEST-ALL", highest_of_all, "the highest of every bit is FF, without bit 255 it is FE"},
    {"HIGHEST-REFUSED", highest_refused, "the question's two refusals and their order"},
    {"HIGHEST-K1", highest_in_k1, "60 is the highest request before K1's delivery, the highest service after"},
    {NULL, NULL, NULL},
};

static unsigned run_list(const struct named_case *list)
{
    static struct stage stage;
    unsigned failed = 0;
    for (; list->name; list++) {
        stage.name = list->name;
        stage.failures = 0;
        list->play(&stage);
        printf("%s %s: %s\n", stage.failures ? "FAILED" : "ok", list->name, list->words);
        failed += stage.failures > 0;
    }
    return failed;
}

unsigned named_run(void)
{
    unsigned failed = run_list(cases);
    return failed + run_list(posting_cases);
}
