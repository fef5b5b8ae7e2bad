/* Named cases of posted interrupts: E1 of document 02, and where Bochs and KVM answer differently. */
#include "generate.h"
#include "named.h"
#include "posting.h"

/* V with posting, and the notification vector of these cases. */
#define CONTROLS_P (CONTROLS_V | CONTROLS_POSTING)
enum { NOTIFICATION = 0xF2 };

/* The words of VIRR that hold 31 and 71, each at bit 17. */
enum { VIRR_31 = 0x210, VIRR_71 = 0x230, BIT_17 = 0x00020000 };

/* The descriptor's byte that holds the outstanding bit. */
enum { OUTSTANDING_BYTE = 32 };

/* In guest mode under some controls, with the notification vector and zeros elsewhere. */
static void notified_guest(struct stage *s, uint32_t controls)
{
    stage_guest(s, controls);
    stage_set_notification(s, NOTIFICATION);
}

/* A guest with posting to which 60 is requested, and recognised. */
static void with_60_requested(struct stage *s)
{
    stage_fresh(s);
    stage_step(s, gg_request(0x60));
    expect_quiet(s);
    stage_step(s, gg_entry_notified(CONTROLS_P, 0, NULL, NOTIFICATION));
    expect_quiet(s);
    expect_recognised(s, 1);
}

/* Posts 31 and 71; only the first of two postings asks for a notification. */
static void post_two(struct stage *s)
{
    int one = gg_post(trial_descriptor(&s->now), 0x31);
    int other = gg_post(trial_descriptor(&s->now), 0x71);
    expect_true(s, one == 1 && other == 0, "one notification for two postings");
}

/* The descriptor has this vector and the outstanding bit, which stands behind vector 255, and nothing else. */
static bool posted_alone(const uint8_t *descriptor, unsigned vector)
{
    for (unsigned bit = 0; bit < 8 * GG_DESCRIPTOR_LENGTH; bit++)
        if ((descriptor[bit / 8] >> bit % 8 & 1) != (bit == vector || bit == 256))
            return false;
    return true;
}

/* The header's posting of every vector, as both programs read it. */
static void e1_post(struct stage *s)
{
    for (unsigned vector = 0; vector < 256; vector++) {
        notified_guest(s, CONTROLS_P);
        gg_post(trial_descriptor(&s->now), (uint8_t)vector);
        expect_true(s, posted_alone(trial_descriptor(&s->now), vector), "one bit posted");
        stage_external(s, NOTIFICATION);
        expect_rvi(s, (uint8_t)vector);
        expect_highest(s, GG_VIRR, (uint8_t)vector);
    }
}

/* At VPPR 60, 71 is recognised and delivered, and 31 waits. */
static void e1(struct stage *s)
{
    with_60_requested(s);
    stage_step(s, gg_boundary(GG_IF, GG_ACTIVE));
    expect_answer(s, GG_DELIVERED, 0x60, 0);
    expect_word(s, GG_VPPR, 0x60);
    struct trial kept = s->now;
    post_two(s);
    stage_external(s, NOTIFICATION);
    expect_quiet(s);
    expect_mode(s, GG_GUEST);
    expect_rvi(s, 0x71);
    expect_recognised(s, 1);
    expect_word(s, VIRR_31, BIT_17);
    expect_word(s, VIRR_71, BIT_17);
    expect_descriptor(s, &kept);
    stage_step(s, gg_boundary(GG_IF, GG_ACTIVE));
    expect_answer(s, GG_DELIVERED, 0x71, 0);
    expect_rvi(s, 0x31);
    expect_recognised(s, 0);
    expect_descriptor(s, &kept);
}

/* Nothing posted: the outstanding bit alone leaves the descriptor, RVI stays, and evaluation is made. */
static void e1_nothing(struct stage *s)
{
    notified_guest(s, CONTROLS_P);
    stage_set_requested(s, 0x71, 0x60);
    for (size_t at = OUTSTANDING_BYTE; at < GG_DESCRIPTOR_LENGTH; at++)
        trial_descriptor(&s->now)[at] = 0xFF;
    struct trial kept = s->now;
    trial_descriptor(&kept)[OUTSTANDING_BYTE] = 0xFE;
    stage_external(s, NOTIFICATION);
    expect_quiet(s);
    expect_rvi(s, 0x71);
    expect_recognised(s, 1);
    expect_page(s, &kept);
    expect_descriptor(s, &kept);
}

/* A posted vector below RVI is requested too, and RVI stays; 0 and FF are vectors like the others. */
static void e1_larger(struct stage *s)
{
    static const struct {
        uint8_t rvi, posted, then;
    } rows[] = {
        {0x80, 0x71, 0x80}, {0x71, 0x71, 0x71}, {0x70, 0x71, 0x71}, {0x00, 0x00, 0x00}, {0xFE, 0xFF, 0xFF},
    };
    for (size_t i = 0; i < sizeof rows / sizeof rows[0]; i++) {
        notified_guest(s, CONTROLS_P);
        stage_set_requested(s, rows[i].rvi, 0);
        struct trial kept = s->now;
        trial_put_vector(&kept, GG_VIRR, rows[i].posted, true);
        gg_post(trial_descriptor(&s->now), rows[i].posted);
        stage_external(s, NOTIFICATION);
        expect_quiet(s);
        expect_rvi(s, rows[i].then);
        expect_recognised(s, rows[i].then >= 0x10);
        expect_page(s, &kept);
        expect_descriptor(s, &kept);
    }
}

/* Of the controls only 5, 6 and 9 count here: without shadow, VID and acknowledge it is the same. */
static void e1_controls(struct stage *s)
{
    const uint32_t least = GG_EXTERNAL_INTERRUPT_EXITING | GG_PROCESS_POSTED_INTERRUPTS;
    for (unsigned window = 0; window < 2; window++) {
        notified_guest(s, window ? least | GG_INTERRUPT_WINDOW_EXITING : least);
        struct trial kept = s->now;
        post_two(s);
        stage_external(s, NOTIFICATION);
        expect_quiet(s);
        expect_rvi(s, 0x71);
        expect_recognised(s, !window);
        expect_descriptor(s, &kept);
    }
}

/* Posting off, another vector, and one that agrees with the notification vector in the low byte alone. */
static void e1_exit(struct stage *s)
{
    static const struct {
        uint32_t controls, vector;
        uint16_t notification;
    } rows[] = {
        {CONTROLS_V, NOTIFICATION, NOTIFICATION},
        {CONTROLS_P, NOTIFICATION + 1, NOTIFICATION},
        {CONTROLS_P, NOTIFICATION, 0x100 + NOTIFICATION},
    };
    for (size_t i = 0; i < sizeof rows / sizeof rows[0]; i++) {
        with_60_requested(s);
        struct gg_record record = trial_record(&s->now);
        record.flags = rows[i].controls;
        record.notification_vector = rows[i].notification;
        trial_set_record(&s->now, &record);
        post_two(s);
        struct trial kept = s->now;
        record.mode = GG_ROOT;
        record.recognised = 0;
        trial_set_record(&kept, &record);
        stage_external(s, rows[i].vector);
        expect_answer(s, GG_VM_EXIT, GG_EXIT_EXTERNAL_INTERRUPT, 0);
        expect_record(s, &kept);
        expect_page(s, &kept);
        expect_descriptor(s, &kept);
    }
}

/* External-interrupt exiting off: the guest's own interrupt, and nothing of the model changes. */
static void e1_passes(struct stage *s)
{
    notified_guest(s, CONTROLS_P & ~GG_EXTERNAL_INTERRUPT_EXITING);
    post_two(s);
    struct trial kept = s->now;
    stage_external(s, NOTIFICATION);
    expect_answer(s, GG_PASSTHROUGH, 0, 0);
    expect_record(s, &kept);
    expect_page(s, &kept);
    expect_descriptor(s, &kept);
}

/* Another length is refusal 5: after refusal 1, before refusals 2 and 3. */
static void e1_length(struct stage *s, uint8_t length)
{
    notified_guest(s, CONTROLS_P);
    post_two(s);
    s->now.descriptor_len = length;
    struct trial kept = s->now;
    stage_external(s, NOTIFICATION);
    expect_refused(s, &kept, GG_REFUSED_DESCRIPTOR_LENGTH);
    stage_external(s, 256);
    expect_refused(s, &kept, GG_REFUSED_DESCRIPTOR_LENGTH);
    s->now.page_len = kept.page_len = GG_PAGE_LENGTH - 1;
    stage_external(s, NOTIFICATION);
    expect_refused(s, &kept, GG_REFUSED_PAGE_LENGTH);
    stage_fresh(s);
    s->now.descriptor_len = length;
    kept = s->now;
    stage_external(s, NOTIFICATION);
    expect_refused(s, &kept, GG_REFUSED_DESCRIPTOR_LENGTH);
}

static void e1_lengths(struct stage *s)
{
    for (size_t i = 1; i < DESCRIPTOR_LENGTHS; i++)
        e1_length(s, descriptor_lengths[i]);
}

/* A vector above 255 and a reserved byte are refusal 2, before refusal 3 of root mode. */
static void e1_bounds(struct stage *s)
{
    notified_guest(s, CONTROLS_P);
    struct trial kept = s->now;
    stage_external(s, 0x100 + NOTIFICATION);
    expect_refused(s, &kept, GG_REFUSED_BOUNDS);
    stage_fresh(s);
    kept = s->now;
    stage_external(s, NOTIFICATION);
    expect_refused(s, &kept, GG_REFUSED_MODE);
    stage_external(s, 256);
    expect_refused(s, &kept, GG_REFUSED_BOUNDS);
    stage_set_reserved(s, 0, 1);
    kept = s->now;
    stage_external(s, NOTIFICATION);
    expect_refused(s, &kept, GG_REFUSED_BOUNDS);
}

/* Bits 9 and 10 of the flags are controls, bit 11 is none, in an entry and in the record. */
static void e1_flags(struct stage *s)
{
    const uint32_t beyond = UINT32_C(1) << 11;
    stage_fresh(s);
    struct trial kept = s->now;
    stage_step(s, gg_entry_notified(CONTROLS_P | beyond, 0, NULL, NOTIFICATION));
    expect_refused(s, &kept, GG_REFUSED_BOUNDS);
    notified_guest(s, CONTROLS_P | beyond);
    kept = s->now;
    stage_external(s, NOTIFICATION);
    expect_refused(s, &kept, GG_REFUSED_BOUNDS);
    notified_guest(s, GG_ALL_CONTROLS);
    stage_external(s, NOTIFICATION);
    expect_quiet(s);
}

#define WITHOUT_VID (CONTROLS_P & ~GG_VIRTUAL_INTERRUPT_DELIVERY)
#define WITHOUT_ACKNOWLEDGE (CONTROLS_P & ~GG_ACKNOWLEDGE_INTERRUPT_ON_EXIT)

/* Entries at VTPR 4F with the check that fails, 0 where the guest is entered. */
static const struct check_row {
    uint32_t controls, threshold;
    uint16_t notification;
    uint8_t check;
} check_rows[] = {
    {CONTROLS_P, 0, NOTIFICATION, 0},
    {CONTROLS_P, 0, 255, 0},
    {CONTROLS_P, 0, 256, GG_CHECK_POSTED_INTERRUPTS},
    {CONTROLS_P, 0, 0xFFFF, GG_CHECK_POSTED_INTERRUPTS},
    {WITHOUT_ACKNOWLEDGE, 0, NOTIFICATION, GG_CHECK_POSTED_INTERRUPTS},
    {WITHOUT_VID, 0, NOTIFICATION, GG_CHECK_POSTED_INTERRUPTS},
    {WITHOUT_VID, 5, NOTIFICATION, GG_CHECK_POSTED_INTERRUPTS},
    {WITHOUT_VID, 16, NOTIFICATION, GG_CHECK_TPR_THRESHOLD},
    {CONTROLS_P & ~GG_EXTERNAL_INTERRUPT_EXITING, 0, 256, GG_CHECK_EXTERNAL_INTERRUPTS},
    {CONTROLS_V, 0, 256, 0},
    {CONTROLS_V, 0, 0xFFFF, 0},
    {CONTROLS_V | GG_ACKNOWLEDGE_INTERRUPT_ON_EXIT, 0, NOTIFICATION, 0},
};

static void e1_entry(struct stage *s, const struct check_row *row)
{
    stage_fresh(s);
    stage_set_priority(s, 0x4F, 0);
    stage_set_notification(s, 0x1234);
    struct trial kept = s->now;
    stage_step(s, gg_entry_notified(row->controls, row->threshold, NULL, row->notification));
    if (row->check) {
        expect_answer(s, GG_REFUSED, GG_REFUSED_ENTRY_CHECK, row->check);
        expect_record(s, &kept);
        expect_page(s, &kept);
        return;
    }
    expect_quiet(s);
    expect_mode(s, GG_GUEST);
    struct gg_record record = trial_record(&s->now);
    bool taken = record.flags == row->controls && record.notification_vector == row->notification;
    expect_true(s, taken, "the entry's controls and notification vector in the record");
}

static void e1_check(struct stage *s)
{
    for (size_t i = 0; i < sizeof check_rows / sizeof check_rows[0]; i++)
        e1_entry(s, &check_rows[i]);
}

/* Nothing posted and nothing requested: RVI is 0 before and after, and nothing is recognised. */
static void bochs_9(struct stage *s)
{
    notified_guest(s, CONTROLS_P);
    struct trial kept = s->now;
    trial_descriptor(&s->now)[OUTSTANDING_BYTE] = 1;
    stage_external(s, NOTIFICATION);
    expect_quiet(s);
    expect_record(s, &kept);
    expect_page(s, &kept);
    expect_descriptor(s, &kept);
}

/* A recognised interrupt waits for an open boundary, notification or not. */
static void bochs_10(struct stage *s)
{
    with_60_requested(s);
    struct trial kept = s->now;
    stage_external(s, NOTIFICATION);
    expect_quiet(s);
    stage_step(s, gg_boundary(0, GG_ACTIVE));
    expect_quiet(s);
    expect_record(s, &kept);
    expect_page(s, &kept);
    stage_step(s, gg_boundary(GG_IF, GG_ACTIVE));
    expect_answer(s, GG_DELIVERED, 0x60, 0);
}

/* Posting with all that check 5 asks for but VID, without the shadow. */
static void bochs_11(struct stage *s)
{
    stage_fresh(s);
    struct trial kept = s->now;
    stage_step(s, gg_entry_notified(CONTROLS_POSTING | GG_EXTERNAL_INTERRUPT_EXITING, 0, NULL, NOTIFICATION));
    expect_answer(s, GG_REFUSED, GG_REFUSED_ENTRY_CHECK, GG_CHECK_POSTED_INTERRUPTS);
    expect_record(s, &kept);
    expect_page(s, &kept);
}

/* A notification is processed also where the outstanding bit is 0. */
static void kvm_1(struct stage *s)
{
    notified_guest(s, CONTROLS_P);
    struct trial kept = s->now;
    post_two(s);
    trial_descriptor(&s->now)[OUTSTANDING_BYTE] = 0;
    stage_external(s, NOTIFICATION);
    expect_quiet(s);
    expect_rvi(s, 0x71);
    expect_recognised(s, 1);
    expect_word(s, VIRR_31, BIT_17);
    expect_word(s, VIRR_71, BIT_17);
    expect_descriptor(s, &kept);
}

/* Vector 80 stands in VIRR by a store from outside: RVI becomes the highest posted vector all the same. */
static void kvm_2(struct stage *s)
{
    notified_guest(s, CONTROLS_P);
    trial_put_vector(&s->now, GG_VIRR, 0x80, true);
    post_two(s);
    stage_external(s, NOTIFICATION);
    expect_quiet(s);
    expect_rvi(s, 0x71);
    expect_highest(s, GG_VIRR, 0x80);
}

const struct named_case posting_cases[] = {
    {"E1", e1, "31 and 71 are posted at VPPR 60: 71 is recognised, both are requests"},
    {"E1-POST", e1_post, "gg_post posts each vector, and that vector is requested"},
    {"E1-NOTHING", e1_nothing, "a notification with nothing posted clears the outstanding bit and evaluates"},
    {"E1-LARGER", e1_larger, "RVI becomes the larger of itself and the highest posted vector"},
    {"E1-CONTROLS", e1_controls, "a posting looks at controls 5, 6 and 9 alone"},
    {"E1-EXIT", e1_exit, "exit 1 with posting off or another vector, all 16 bits compared"},
    {"E1-PASSES", e1_passes, "passthrough without external-interrupt exiting"},
    {"E1-LENGTH", e1_lengths, "a descriptor of 0, 63, 65 or 128 bytes is refusal 5, after 1, before 2 and 3"},
    {"E1-BOUNDS", e1_bounds, "refusals 2 and 3 of an external interrupt"},
    {"E1-FLAGS", e1_flags, "flags end at bit 10"},
    {"E1-CHECK", e1_check, "each part of check 5, after check 4 and before check 6"},
    {"BOCHS-9", bochs_9, "a notification with nothing posted and nothing requested leaves RVI 0"},
    {"BOCHS-10", bochs_10, "a notification delivers nothing while IF is off"},
    {"BOCHS-11", bochs_11, "posting without shadow and VID is check 5"},
    {"KVM-1", kvm_1, "posted vectors are taken where the outstanding bit is 0"},
    {"KVM-2", kvm_2, "RVI becomes the highest posted vector, whatever else stands in VIRR"},
    {NULL, NULL, NULL},
};
