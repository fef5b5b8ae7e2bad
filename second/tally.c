/* Counts of kinds, answers, exits, refusals and checks, and of the question's own answers. */
#include "tally.h"

#include "show.h"

#include <inttypes.h>
#include <stdio.h>

#define COUNT(array) (sizeof(array) / sizeof((array)[0]))
#define BIT(answer) (1u << (answer))

static const unsigned exit_reasons[] = {
    GG_EXIT_EXTERNAL_INTERRUPT,  GG_EXIT_INTERRUPT_WINDOW, GG_EXIT_CONTROL_REGISTER,
    GG_EXIT_TPR_BELOW_THRESHOLD, GG_EXIT_APIC_ACCESS,      GG_EXIT_VIRTUALIZED_EOI,
    GG_EXIT_APIC_WRITE,
};

static const unsigned entry_checks[] = {
    GG_CHECK_TPR_SHADOW_OFF, GG_CHECK_BOTH_APIC_MODES,   GG_CHECK_EXTERNAL_INTERRUPTS,
    GG_CHECK_TPR_THRESHOLD,  GG_CHECK_POSTED_INTERRUPTS, GG_CHECK_TPR_BELOW_THRESHOLD,
};

/* The answers that each kind can have. */
static const unsigned possible[ANSWERED_KINDS] = {
    [KIND_UNKNOWN] = BIT(GG_REFUSED),
    [GG_ENTRY] = BIT(GG_REFUSED) | BIT(GG_VM_EXIT) | BIT(GG_QUIET),
    [GG_MEMORY_READ] = BIT(GG_REFUSED) | BIT(GG_REDIRECTED) | BIT(GG_PASSTHROUGH) | BIT(GG_VM_EXIT),
    [GG_MEMORY_WRITE] = BIT(GG_REFUSED) | BIT(GG_PASSTHROUGH) | BIT(GG_VM_EXIT) | BIT(GG_QUIET),
    [GG_TO_CR8] = BIT(GG_REFUSED) | BIT(GG_PASSTHROUGH) | BIT(GG_VM_EXIT) | BIT(GG_QUIET),
    [GG_FROM_CR8] = BIT(GG_REFUSED) | BIT(GG_REDIRECTED) | BIT(GG_PASSTHROUGH) | BIT(GG_VM_EXIT),
    [GG_RDMSR] = BIT(GG_REFUSED) | BIT(GG_REDIRECTED) | BIT(GG_PASSTHROUGH),
    [GG_WRMSR] = BIT(GG_REFUSED) | BIT(GG_PASSTHROUGH) | BIT(GG_FAULT) | BIT(GG_VM_EXIT) | BIT(GG_QUIET),
    [GG_BOUNDARY] = BIT(GG_REFUSED) | BIT(GG_VM_EXIT) | BIT(GG_DELIVERED) | BIT(GG_QUIET),
    [GG_REQUEST] = BIT(GG_REFUSED) | BIT(GG_QUIET),
    [KIND_LEAVE] = BIT(GG_REFUSED) | BIT(GG_QUIET),
    [KIND_EXTERNAL] = BIT(GG_REFUSED) | BIT(GG_PASSTHROUGH) | BIT(GG_VM_EXIT) | BIT(GG_QUIET),
};

static void add_question(struct tally *tally, const struct gg_answer *answer)
{
    tally->highest[answer->number % HIGHEST_ANSWERS]++;
    if (answer->number == GG_HIGHEST_REFUSED)
        tally->highest_refusals[answer->first % HIGHEST_REFUSALS]++;
}

static void add_answer(struct tally *tally, unsigned kind, const struct gg_answer *answer)
{
    tally->answers[answer->number % ANSWERS]++;
    tally->cells[kind][answer->number % ANSWERS]++;
    if (answer->number == GG_VM_EXIT)
        tally->reasons[answer->first % REASONS]++;
    if (answer->number == GG_REFUSED)
        tally->refusals[answer->first % REFUSALS]++;
    if (answer->number == GG_REFUSED && answer->first == GG_REFUSED_ENTRY_CHECK)
        tally->checks[answer->second % CHECKS]++;
}

void tally_add(struct tally *tally, const struct trial *before, const struct gg_answer *answer)
{
    unsigned kind = trial_kind(before);
    tally->steps++;
    tally->kinds[kind]++;
    if (kind == KIND_HIGHEST)
        add_question(tally, answer);
    else
        add_answer(tally, kind, answer);
}

static void print_cells(const struct tally *tally)
{
    printf("kind by answer (- is impossible):\n  %-18s", "");
    for (unsigned number = 0; number < ANSWERS; number++)
        printf("%12s", show_answer(number));
    for (unsigned kind = 0; kind < ANSWERED_KINDS; kind++) {
        printf("\n  %-18s", show_kind(kind));
        for (unsigned number = 0; number < ANSWERS; number++)
            if (possible[kind] & BIT(number))
                printf("%12" PRIu64, tally->cells[kind][number]);
            else
                printf("%12s", "-");
    }
    printf("\n");
}

static void print_question(const struct tally *tally)
{
    printf("the question's answers:\n");
    for (unsigned number = 0; number < HIGHEST_ANSWERS; number++)
        printf("  %-24s %12" PRIu64 "\n", show_highest_answer(number), tally->highest[number]);
    printf("the question's refusals:\n");
    for (unsigned refusal = 1; refusal < HIGHEST_REFUSALS; refusal++)
        printf("  %-24u %12" PRIu64 "\n", refusal, tally->highest_refusals[refusal]);
}

void tally_print(const struct tally *tally)
{
    printf("steps: %" PRIu64 "\nkinds:\n", tally->steps);
    for (unsigned kind = 0; kind < KINDS; kind++)
        printf("  %-24s %12" PRIu64 "\n", show_kind(kind), tally->kinds[kind]);
    printf("answers:\n");
    for (unsigned number = 0; number < ANSWERS; number++)
        printf("  %-24s %12" PRIu64 "\n", show_answer(number), tally->answers[number]);
    printf("exit reasons:\n");
    for (size_t i = 0; i < COUNT(exit_reasons); i++)
        printf("  %2u %-21s %12" PRIu64 "\n", exit_reasons[i], show_reason(exit_reasons[i]),
               tally->reasons[exit_reasons[i]]);
    printf("refusals:\n");
    for (unsigned refusal = 1; refusal < REFUSALS; refusal++)
        printf("  %-24u %12" PRIu64 "\n", refusal, tally->refusals[refusal]);
    printf("entry checks:\n");
    for (size_t i = 0; i < COUNT(entry_checks); i++)
        printf("  %2u %-21s %12" PRIu64 "\n", entry_checks[i], show_check(entry_checks[i]),
               tally->checks[entry_checks[i]]);
    print_cells(tally);
    print_question(tally);
    printf("most vectors in service in a session: %u\n", tally->deepest);
}

static unsigned missing(uint64_t count, const char *table, const char *cell)
{
    if (count > 0)
        return 0;
    printf("never exercised: %s %s\n", table, cell);
    return 1;
}

static unsigned missing_number(uint64_t count, const char *table, unsigned number)
{
    char cell[16];
    snprintf(cell, sizeof cell, "%u", number);
    return missing(count, table, cell);
}

static unsigned missing_cells(const struct tally *tally)
{
    unsigned found = 0;
    for (unsigned kind = 0; kind < ANSWERED_KINDS; kind++)
        for (unsigned number = 0; number < ANSWERS; number++)
            if (possible[kind] & BIT(number))
                found += missing(tally->cells[kind][number], show_kind(kind), show_answer(number));
    return found;
}

static unsigned missing_question(const struct tally *tally)
{
    unsigned found = 0;
    for (unsigned number = 0; number < HIGHEST_ANSWERS; number++)
        found += missing(tally->highest[number], "the question's answer", show_highest_answer(number));
    for (unsigned refusal = 1; refusal < HIGHEST_REFUSALS; refusal++)
        found += missing_number(tally->highest_refusals[refusal], "the question's refusal", refusal);
    return found;
}

unsigned tally_missing(const struct tally *tally)
{
    unsigned found = missing_cells(tally) + missing_question(tally);
    for (unsigned kind = 0; kind < KINDS; kind++)
        found += missing(tally->kinds[kind], "kind", show_kind(kind));
    for (unsigned number = 0; number < ANSWERS; number++)
        found += missing(tally->answers[number], "answer", show_answer(number));
    for (size_t i = 0; i < COUNT(exit_reasons); i++)
        found += missing(tally->reasons[exit_reasons[i]], "exit", show_reason(exit_reasons[i]));
    for (unsigned refusal = 1; refusal < REFUSALS; refusal++)
        found += missing_number(tally->refusals[refusal], "refusal", refusal);
    for (size_t i = 0; i < COUNT(entry_checks); i++)
        found += missing(tally->checks[entry_checks[i]], "entry check", show_check(entry_checks[i]));
    return found + missing(tally->deepest >= 10, "nesting of", "10 vectors or more");
}
