/* Prints states, events and answers in words. */
#include "show.h"

#include <inttypes.h>
#include <stdio.h>
#include <string.h>

#define COUNT(array) (sizeof(array) / sizeof((array)[0]))

const char *show_kind(unsigned kind)
{
    static const char *const names[KINDS] = {
        "unknown", "entry",    "memory read", "memory write", "to CR8",             "from CR8", "RDMSR",
        "WRMSR",   "boundary", "request",     "leave",        "external interrupt", "highest"};
    return names[kind];
}

const char *show_answer(unsigned number)
{
    static const char *const names[] = {"refused", "redirected", "passthrough", "fault",
                                        "VM exit", "delivered",  "quiet"};
    return number < COUNT(names) ? names[number] : "no answer of document 01";
}

const char *show_highest_answer(unsigned number)
{
    static const char *const names[] = {"refused", "vector", "none"};
    return number < COUNT(names) ? names[number] : "no answer of the question";
}

const char *show_reason(unsigned reason)
{
    switch (reason) {
    case GG_EXIT_EXTERNAL_INTERRUPT:
        return "external interrupt";
    case GG_EXIT_INTERRUPT_WINDOW:
        return "interrupt window";
    case GG_EXIT_CONTROL_REGISTER:
        return "control-register access";
    case GG_EXIT_TPR_BELOW_THRESHOLD:
        return "TPR below threshold";
    case GG_EXIT_APIC_ACCESS:
        return "APIC access";
    case GG_EXIT_VIRTUALIZED_EOI:
        return "virtualized EOI";
    case GG_EXIT_APIC_WRITE:
        return "APIC write";
    default:
        return "unknown reason";
    }
}

const char *show_check(unsigned check)
{
    switch (check) {
    case GG_CHECK_TPR_SHADOW_OFF:
        return "TPR shadow off";
    case GG_CHECK_BOTH_APIC_MODES:
        return "both APIC modes";
    case GG_CHECK_EXTERNAL_INTERRUPTS:
        return "external interrupts";
    case GG_CHECK_TPR_THRESHOLD:
        return "TPR threshold";
    case GG_CHECK_POSTED_INTERRUPTS:
        return "posted interrupts";
    case GG_CHECK_TPR_BELOW_THRESHOLD:
        return "TPR below threshold";
    default:
        return "unknown check";
    }
}

static void show_bytes(const char *name, const uint8_t *bytes, size_t count)
{
    printf("  %s", name);
    for (size_t at = 0; at < count; at++)
        printf("%s%02X", at % 4 ? "" : " ", bytes[at]);
    printf("\n");
}

static void show_controls(uint32_t flags)
{
    static const char *const names[] = {"shadow",    "APIC-accesses", "x2APIC",     "registers",
                                        "VID",       "external",      "window",     "CR8-load",
                                        "CR8-store", "posting",       "acknowledge"};
    printf("%03" PRIX32 " (", flags);
    for (unsigned bit = 0; bit < COUNT(names); bit++)
        if (flags >> bit & 1)
            printf(" %s", names[bit]);
    printf("%s )", flags & ~GG_ALL_CONTROLS ? " and stray bits" : "");
}

/* A register's highest vector in words: none where it is empty, 00H where bit 0 alone is set. */
static void show_highest(const char *lead, const struct trial *t, uint32_t base)
{
    int highest = trial_highest(t, base);
    if (highest == TRIAL_NONE)
        printf("%s none", lead);
    else
        printf("%s %02XH", lead, (unsigned)highest);
}

/* A register's vectors, none where it is empty; of more than 40 their number and the highest. */
static void show_vectors(const char *name, const struct trial *t, uint32_t base)
{
    unsigned set = trial_count(t, base);
    printf("  %s:", name);
    for (unsigned vector = 0; vector < 256 && set <= 40; vector++)
        if (gg_vector_is_set(trial_page_of(t), base, (uint8_t)vector))
            printf(" %02XH", vector);
    if (set > 40)
        printf(" %u vectors, highest", set);
    if (set > 40 || set == 0)
        show_highest("", t, base);
    printf("\n");
}

static void show_record(const struct trial *t)
{
    struct gg_record record = trial_record(t);
    printf("  mode %u, RVI %02X, SVI %02X, recognised %u, threshold %" PRIX32 ", controls ", record.mode,
           record.rvi, record.svi, record.recognised, record.threshold);
    show_controls(record.flags);
    printf(", notification vector %04X\n", record.notification_vector);
    show_bytes("reserved", record.reserved_zero, sizeof record.reserved_zero);
    show_bytes("EOI exits", t->record_bytes + GUARD + offsetof(struct gg_record, eoi_exit), 32);
}

static void show_question(const struct trial *t)
{
    const char *name = t->base == GG_VIRR ? "VIRR" : t->base == GG_VISR ? "VISR" : "another register";
    printf("  question: highest vector of %s, base %03" PRIX64 "H; the page alone is read\n", name, t->base);
}

/* The posted vectors, none where there is none; after 40 of them their number and the highest. */
static void show_posted(const struct trial *t)
{
    unsigned posted = 0, highest = 0;
    printf("  posted:");
    for (unsigned vector = 0; vector < 256; vector++) {
        if (!trial_is_posted(t, vector))
            continue;
        highest = vector;
        if (posted++ < 40)
            printf(" %02XH", vector);
    }
    if (posted > 40)
        printf(" .., %u vectors, highest %02XH", posted, highest);
    printf(posted == 0 ? " none\n" : "\n");
}

static void show_external(const struct trial *t)
{
    printf("  external interrupt: vector %" PRIX64 "H; no event is handed over\n", t->vector);
    show_posted(t);
    show_bytes("descriptor", trial_descriptor_of(t), GG_DESCRIPTOR_LENGTH);
}

static void show_event(const struct trial *t)
{
    struct gg_event event = trial_event(t);
    if (t->operation == TRIAL_EXTERNAL) {
        show_external(t);
        return;
    }
    if (t->operation == TRIAL_HIGHEST) {
        show_question(t);
        return;
    }
    if (t->operation == TRIAL_LEAVE) {
        printf("  the guest leaves: no page and no event are handed over\n");
        return;
    }
    printf("  event: %s, size %u, flags %02X, detail %u, number %" PRIX32 ", value %" PRIX64 "\n",
           show_kind(trial_kind(t)), event.size, event.flags, event.detail, event.number, event.value);
    if (event.kind == GG_ENTRY) {
        printf("  entry's controls ");
        show_controls((uint32_t)event.value);
        printf(", reserved %04X, notification vector %04X", (unsigned)(event.value >> 48),
               (unsigned)(event.value >> 32 & 0xFFFF));
        printf(", threshold %" PRIX32 "\n", event.number);
    }
    show_bytes("event bytes", t->event_bytes + GUARD, GG_EVENT_LENGTH);
}

static const char *show_null(const struct trial *t, unsigned part)
{
    return t->nulls & part ? " (null)" : "";
}

void show_trial(const struct trial *t)
{
    static const struct {
        const char *name;
        uint32_t offset;
    } words[] = {{"VTPR", GG_VTPR}, {"VPPR", GG_VPPR}, {"VEOI", GG_VEOI}, {"VICR_LO", GG_VICR_LO},
                 {"VICR_HI", GG_VICR_HI}};
    printf("  lengths: page %zu%s, record %zu%s, event %zu%s, descriptor %zu%s\n", t->page_len,
           show_null(t, NULL_PAGE), t->record_len, show_null(t, NULL_RECORD), t->event_len,
           show_null(t, NULL_EVENT), t->descriptor_len, show_null(t, NULL_DESCRIPTOR));
    show_record(t);
    printf("  page:");
    for (size_t i = 0; i < COUNT(words); i++)
        printf(" %s %08" PRIX32, words[i].name, gg_word(trial_page_of(t), words[i].offset));
    printf("\n");
    show_vectors("VISR", t, GG_VISR);
    show_vectors("VIRR", t, GG_VIRR);
    show_event(t);
}

/* An answer in words; the question's refusal is told with its number and its vector in two digits. */
static void show_words(unsigned kind, const struct gg_answer *answer)
{
    printf("%s", kind == KIND_HIGHEST ? show_highest_answer(answer->number) : show_answer(answer->number));
    if (kind == KIND_HIGHEST && answer->number == GG_HIGHEST_REFUSED)
        printf(" by %" PRIu64, answer->first);
    if (kind == KIND_HIGHEST && answer->number == GG_HIGHEST_VECTOR)
        printf(" %02" PRIX64 "H", answer->first);
}

static void show_answer_line(const char *who, const struct side *side)
{
    const struct gg_answer *answer = &side->answer;
    printf("  %-6s answers %" PRIu32 " ", who, answer->number);
    show_words(trial_kind(&side->trial), answer);
    printf(", first %" PRIu64 " (%" PRIX64 "H), second %" PRIu64 " (%" PRIX64 "H)\n", answer->first,
           answer->first, answer->second, answer->second);
}

void show_answers(const struct pair *pair)
{
    show_answer_line("model", &pair->model);
    show_answer_line("second", &pair->second);
}

void show_page(const struct trial *t)
{
    static const uint8_t zeros[16];
    for (size_t row = 0; row < GG_PAGE_LENGTH; row += 16)
        if (memcmp(trial_page_of(t) + row, zeros, sizeof zeros) != 0) {
            printf("  page %03zX", row);
            show_bytes("", trial_page_of(t) + row, 16);
        }
}

/* Prints up to a few places where two byte arrays differ. */
static void show_unequal(const char *name, const uint8_t *left, const uint8_t *right, size_t count)
{
    unsigned shown = 0;
    for (size_t at = 0; at < count; at++) {
        if (left[at] == right[at] || shown++ >= 24)
            continue;
        if (at < GUARD)
            printf("  before the %s, byte -%zu: %02X | %02X\n", name, GUARD - at, left[at], right[at]);
        else
            printf("  %s byte %03zXH: %02X | %02X\n", name, at - GUARD, left[at], right[at]);
    }
    if (shown > 24)
        printf("  %s: %u more bytes\n", name, shown - 24);
}

static void show_two(const struct trial *left, const struct trial *right)
{
    show_unequal("record", left->record_bytes, right->record_bytes, sizeof left->record_bytes);
    show_unequal("page", left->page_bytes, right->page_bytes, trial_page_used(left));
    show_unequal("event", left->event_bytes, right->event_bytes, sizeof left->event_bytes);
    show_unequal("descriptor", left->descriptor_bytes, right->descriptor_bytes,
                 sizeof left->descriptor_bytes);
}

void show_changes(const char *who, const struct trial *before, const struct trial *after)
{
    printf("%s changes (before | after):\n", who);
    show_two(before, after);
}

/* Says what each side's highest vector of a register is where they differ. */
static void show_unequal_highest(const char *name, const struct pair *pair, uint32_t base)
{
    if (trial_highest(&pair->model.trial, base) == trial_highest(&pair->second.trial, base))
        return;
    printf("  highest %s:", name);
    show_highest(" model", &pair->model.trial, base);
    show_highest(" | second", &pair->second.trial, base);
    printf("\n");
}

void show_differences(const struct pair *pair)
{
    printf(pair_same(pair) ? "the two agree\n" : "the two differ in (model | second):\n");
    if (!answer_same(&pair->model.answer, &pair->second.answer))
        printf("  the answer\n");
    show_unequal_highest("request", pair, GG_VIRR);
    show_unequal_highest("service", pair, GG_VISR);
    show_two(&pair->model.trial, &pair->second.trial);
}
