/* The driver: generates steps from a seed, runs both programs, stops at the first difference. */
#include "faults.h"
#include "generate.h"
#include "matters.h"
#include "named.h"
#include "null.h"
#include "options.h"
#include "posting.h"
#include "question.h"
#include "session.h"
#include "show.h"
#include "sweep.h"
#include "tally.h"

#include <inttypes.h>
#include <stdio.h>
#include <stdlib.h>
#include <string.h>

enum { OK = 0, DIFFERS = 1, USAGE = 2 };
enum { SINGLE, JUNK, SESSION, HIGHEST, POSTING, FIRST_SWEEP };
enum { GATE_SINGLE = 200000, GATE_JUNK = 100000, GATE_SESSION = 200000, GATE_HIGHEST = 100000 };
enum { LONG_TOTAL = 10000000, LONG_SINGLE = 3000000, LONG_JUNK = 1000000, LONG_HIGHEST = 1000000 };
enum { GATE_POSTING = 100000, LONG_POSTING = 500000 };

static struct tally tally;
static struct pair pair;
static uint64_t seed = 1;

static void help(FILE *to)
{
    fputs("usage: compare [--seed N] [--fault NAME] COMMAND\n"
          "Runs the proved model and an independent second program on the same steps and\n"
          "compares answer, record, page and descriptor after every step, be it an event, an\n"
          "external interrupt, a leave or the question for the highest vector of VIRR or VISR.\n\n"
          "  gate              sweeps, random steps, postings, questions, junk, sessions; the short run\n"
          "  long              ten million steps, with a table of what they exercise\n"
          "  named             the named bench cases\n"
          "  null              null pointers with length 0\n"
          "  matters           the header's gg_boundary_matters\n"
          "  faults            lists the faults that --fault takes\n"
          "  replay SEED STEP  prints one step, named as in 'memory:12345'\n\n"
          "  --seed N          the seed of what is random (default 1)\n"
          "  --fault NAME      the second program follows one wrong rule\n\n"
          "Exit status: 0 no difference, 1 a difference or something never exercised, 2 bad usage.\n",
          to);
}

static const char *family_name(unsigned family)
{
    static const char *const names[] = {"single", "junk", "session", "highest", "posting"};
    return family < FIRST_SWEEP ? names[family] : sweeps[family - FIRST_SWEEP].name;
}

/* A case that stands alone; sessions are made step by step instead. */
static void make_case(unsigned family, uint64_t index, struct trial *t)
{
    struct random r = random_for(seed, family, index);
    if (family == SINGLE)
        generate_single(&r, t);
    else if (family == JUNK)
        generate_junk(&r, t);
    else if (family == HIGHEST)
        question_any(&r, t);
    else if (family == POSTING)
        posting_any(&r, t);
    else
        sweeps[family - FIRST_SWEEP].make(&r, index, t);
}

static void report(const char *headline, unsigned family, uint64_t index, const struct trial *before)
{
    printf("%s at %s:%" PRIu64 "\nbefore:\n", headline, family_name(family), index);
    show_trial(before);
    printf("after:\n");
    show_answers(&pair);
    show_differences(&pair);
    printf("replay with: compare ");
    if (fault_on != FAULT_NONE)
        printf("--fault %s ", fault_name(fault_on));
    printf("replay %" PRIu64 " %s:%" PRIu64 "\n", seed, family_name(family), index);
}

/* Runs one step on both; false at a difference, which it reports. */
static bool check(unsigned family, uint64_t index, const struct trial *before)
{
    pair_run(&pair, before);
    tally_add(&tally, before, &pair.model.answer);
    if (pair_same(&pair))
        return true;
    report("difference", family, index, before);
    return false;
}

static bool run_cases(unsigned family, uint64_t count)
{
    static struct trial t;
    for (uint64_t index = 0; index < count; index++) {
        make_case(family, index, &t);
        if (!check(family, index, &t))
            return false;
    }
    printf("%-12s %9" PRIu64 " steps agree\n", family_name(family), count);
    return true;
}

/* One step of a session; false at a difference or where condition 3 breaks. */
static bool session_step(struct session *s, uint64_t index)
{
    static struct trial before;
    struct random r = random_for(seed, SESSION, index);
    session_choose(&r, s);
    trial_copy(&before, &s->now);
    if (!check(SESSION, index, &before))
        return false;
    const char *broken = session_advance(s, &pair.model);
    unsigned depth = trial_count(&s->now, GG_VISR);
    if (depth > tally.deepest)
        tally.deepest = depth;
    if (!broken)
        return true;
    printf("condition 3 is broken: %s\n", broken);
    report("broken condition", SESSION, index, &before);
    return false;
}

static bool run_sessions(uint64_t count)
{
    static struct session s;
    for (uint64_t index = 0; index < count; index++) {
        if (index % SESSION_LENGTH == 0)
            session_start(&s, index / SESSION_LENGTH);
        if (!session_step(&s, index))
            return false;
    }
    printf("%-12s %9" PRIu64 " steps agree, up to %u vectors in service\n", "session", count, tally.deepest);
    return true;
}

static bool run_sweeps(void)
{
    for (unsigned family = FIRST_SWEEP; family_name(family); family++)
        if (!run_cases(family, sweeps[family - FIRST_SWEEP].count))
            return false;
    return true;
}

static int gate(void)
{
    if (!run_cases(SINGLE, GATE_SINGLE) || !run_cases(JUNK, GATE_JUNK) || !run_cases(HIGHEST, GATE_HIGHEST) ||
        !run_cases(POSTING, GATE_POSTING) || !run_sessions(GATE_SESSION) || !run_sweeps())
        return DIFFERS;
    printf("gate: %" PRIu64 " steps, no difference (seed %" PRIu64 ")\n", tally.steps, seed);
    return OK;
}

static int long_run(void)
{
    if (!run_sweeps() || !run_cases(SINGLE, LONG_SINGLE) || !run_cases(JUNK, LONG_JUNK) ||
        !run_cases(HIGHEST, LONG_HIGHEST) || !run_cases(POSTING, LONG_POSTING) ||
        !run_sessions(LONG_TOTAL - tally.steps))
        return DIFFERS;
    tally_print(&tally);
    unsigned missing = tally_missing(&tally);
    printf("long: %" PRIu64 " steps, no difference, %u never exercised (seed %" PRIu64 ")\n", tally.steps,
           missing, seed);
    return missing ? DIFFERS : OK;
}

static int named(void)
{
    unsigned failed = named_run();
    printf("named: %u failed\n", failed);
    return failed ? DIFFERS : OK;
}

static int null(void)
{
    return null_run(seed) ? DIFFERS : OK;
}

static int matters(void)
{
    return matters_run(seed) ? DIFFERS : OK;
}

static int faults(void)
{
    fault_print_all();
    return OK;
}

/* Reads a step's name, as in 'memory:12345'. */
static bool read_step(const char *text, unsigned *family, uint64_t *index)
{
    const char *colon = strchr(text, ':');
    if (!colon || !options_number(colon + 1, index))
        return false;
    for (*family = 0; family_name(*family); ++*family)
        if (strlen(family_name(*family)) == (size_t)(colon - text) &&
            strncmp(family_name(*family), text, (size_t)(colon - text)) == 0)
            return *family < FIRST_SWEEP || *index < sweeps[*family - FIRST_SWEEP].count;
    return false;
}

/* Makes the input of a step; a session is played again from its start. */
static bool remake(unsigned family, uint64_t index, struct trial *t)
{
    static struct session s;
    if (family != SESSION) {
        make_case(family, index, t);
        return true;
    }
    uint64_t start = index - index % SESSION_LENGTH;
    session_start(&s, start / SESSION_LENGTH);
    for (uint64_t at = start; at < index; at++)
        if (!session_step(&s, at))
            return false;
    struct random r = random_for(seed, SESSION, index);
    session_choose(&r, &s);
    trial_copy(t, &s.now);
    return true;
}

static int replay(const char *seed_text, const char *step_text)
{
    static struct trial t;
    unsigned family;
    uint64_t index;
    if (!options_number(seed_text, &seed) || !read_step(step_text, &family, &index)) {
        fputs("compare: replay takes a seed and a step such as 'memory:12345'\n", stderr);
        return USAGE;
    }
    if (!remake(family, index, &t))
        return DIFFERS;
    pair_run(&pair, &t);
    report(pair_same(&pair) ? "agreement" : "difference", family, index, &t);
    show_changes("model", &t, &pair.model.trial);
    show_changes("second program", &t, &pair.second.trial);
    printf("page before:\n");
    show_page(&t);
    return pair_same(&pair) ? OK : DIFFERS;
}

static int command(int count, char **words)
{
    static const struct {
        const char *name;
        int (*run)(void);
    } commands[] = {{"gate", gate}, {"long", long_run},   {"named", named},
                    {"null", null}, {"matters", matters}, {"faults", faults}};
    for (size_t i = 0; i < sizeof commands / sizeof commands[0]; i++)
        if (count == 1 && strcmp(words[0], commands[i].name) == 0)
            return commands[i].run();
    if (count == 3 && strcmp(words[0], "replay") == 0)
        return replay(words[1], words[2]);
    help(stderr);
    return USAGE;
}

static bool take_fault(const char *name)
{
    fault_on = fault_by_name(name);
    return fault_on != FAULT_NONE;
}

int main(int count, char **words)
{
    int at = options_read(count, words, "compare", &seed, take_fault);
    if (at == 0)
        return USAGE;
    if (at < count && strcmp(words[at], "--help") == 0) {
        help(stdout);
        return OK;
    }
    setvbuf(stdout, NULL, _IOLBF, 0);
    return command(count - at, words + at);
}
