/* The driver of replays: makes traces from a seed, runs both programs, stops at the first difference. */
#include "listing.h"
#include "options.h"
#include "recorded.h"
#include "replay.h"
#include "replay_faults.h"
#include "replay_named.h"
#include "replay_tally.h"
#include "traces.h"

#include <inttypes.h>
#include <stdio.h>
#include <stdlib.h>
#include <string.h>

enum { OK = 0, DIFFERS = 1, USAGE = 2 };

static struct attempt attempt;
static struct replayed both;
static struct replay_tally tally;
static uint64_t seed = 1;

static void help(FILE *to)
{
    fputs("usage: replays [--seed N] [--fault NAME] COMMAND\n"
          "Replays traces by the library's gg_replay and by an independent second program and\n"
          "compares what is returned, the length and every byte in and around the buffer, once\n"
          "with an ample buffer and once with one around the text's length.\n\n"
          "  gate              sessions, cuts, damage, noise, sweeps over the format; the short run\n"
          "  long              more of them, with a table of what they exercise\n"
          "  named             traces written by hand, with their texts\n"
          "  null              null pointers with length 0\n"
          "  recorded          sessions recorded by the header's functions beside gg_step\n"
          "  faults            lists the faults that --fault takes\n"
          "  show SEED TRACE   lists one trace, named as in 'session:123', with both texts\n"
          "  bytes SEED TRACE  writes one trace's bytes to the output\n"
          "  print             replays the trace on the input by the second program, 10,000 records\n\n"
          "  --seed N          the seed of what is random (default 1)\n"
          "  --fault NAME      the second program follows one wrong reading\n\n"
          "Exit status: 0 no difference, 1 a difference or something never exercised, 2 bad usage.\n",
          to);
}

static bool make(unsigned family, uint64_t index)
{
    struct random r = random_for(seed, family, index / families[family].shared);
    return families[family].make(&r, index, &attempt);
}

static void report(const char *headline, unsigned family, uint64_t index)
{
    printf("%s at %s:%" PRIu64 "\n", headline, families[family].name, index);
    list_call(&attempt, &both);
    list_difference(&attempt, &both);
    printf("show it with: replays ");
    if (replay_fault_on != REPLAY_FAULT_NONE)
        printf("--fault %s ", replay_fault_name(replay_fault_on));
    printf("show %" PRIu64 " %s:%" PRIu64 "\n", seed, families[family].name, index);
}

/* Replays the attempt with an ample buffer, then with its own; false where the two programs differ. */
static bool run_both(void)
{
    replayed_run(&both, &attempt, attempt_ample(&attempt), false);
    if (!replayed_same(&both))
        return false;
    replay_tally_add(&tally, &attempt, &both.model);
    replay_tally_buffer(&tally, attempt.buffer);
    size_t out_len = attempt_length(&attempt, result_length(&both.model));
    replayed_run(&both, &attempt, out_len, attempt.buffer == BUFFER_NULL);
    return replayed_same(&both);
}

static bool run_family(unsigned family, uint64_t count)
{
    uint64_t before = tally.traces;
    for (uint64_t index = 0; index < count; index++)
        if (make(family, index) && !run_both()) {
            report("difference", family, index);
            return false;
        }
    printf("%-12s %9" PRIu64 " traces agree\n", families[family].name, tally.traces - before);
    return true;
}

/* A run fails too where something that a trace can bring about never is. */
static int finish(const char *name, bool prints)
{
    if (prints)
        replay_tally_print(&tally);
    unsigned missing = replay_tally_missing(&tally);
    printf("%s: %" PRIu64 " traces, %" PRIu64 " records, no difference, %u never exercised", name, tally.traces,
           tally.records, missing);
    printf(" (seed %" PRIu64 ")\n", seed);
    return missing ? DIFFERS : OK;
}

static int gate(void)
{
    for (unsigned family = 0; families[family].name; family++)
        if (!run_family(family, families[family].gate))
            return DIFFERS;
    return finish("gate", false);
}

static int long_run(void)
{
    for (unsigned family = 0; families[family].name; family++)
        if (!run_family(family, families[family].all))
            return DIFFERS;
    return finish("long", true);
}

static int named(void)
{
    unsigned failed = replay_named_run();
    printf("named: %u failed\n", failed);
    return failed ? DIFFERS : OK;
}

static int null(void)
{
    return replay_null_run() ? DIFFERS : OK;
}

static int recorded(void)
{
    return recorded_run(seed) ? DIFFERS : OK;
}

static int faults(void)
{
    replay_fault_print_all();
    return OK;
}

/* The trace is the whole input; of one that is too long it is enough to see that it is. */
static int print(void)
{
    static uint8_t trace[TRACE_ROOM], out[OUT_ROOM];
    uint64_t written;
    size_t length = fread(trace, 1, sizeof trace, stdin);
    second_replay(trace, length, GG_REPLAY_LIMIT, out, sizeof out, &written);
    return fwrite(out, 1, (size_t)written, stdout) == written ? OK : DIFFERS;
}

/* Reads a trace's name, as in 'session:123', and makes it. */
static bool remake(const char *seed_text, const char *text, unsigned *family, uint64_t *index)
{
    const char *colon = strchr(text, ':');
    if (!options_number(seed_text, &seed) || !colon || !options_number(colon + 1, index))
        return false;
    for (*family = 0; families[*family].name; ++*family)
        if (strlen(families[*family].name) == (size_t)(colon - text) &&
            strncmp(families[*family].name, text, (size_t)(colon - text)) == 0)
            return *index < families[*family].all && make(*family, *index);
    return false;
}

static int show(unsigned family, uint64_t index)
{
    printf("the trace:\n");
    list_records(&attempt.trace, 1, UINT32_MAX, 0);
    bool same = run_both();
    report(same ? "agreement" : "difference", family, index);
    replayed_run(&both, &attempt, attempt_ample(&attempt), false);
    list_text("the model's text", &both.model);
    list_text("the second program's text", &both.second);
    return same ? OK : DIFFERS;
}

static int bytes(void)
{
    size_t length = attempt.trace.length;
    return fwrite(trace_at(&attempt.trace), 1, length, stdout) == length ? OK : DIFFERS;
}

static int with_trace(char **words)
{
    unsigned family;
    uint64_t index;
    if (!remake(words[1], words[2], &family, &index)) {
        fprintf(stderr, "replays: %s takes a seed and a trace such as 'session:123'\n", words[0]);
        return USAGE;
    }
    return strcmp(words[0], "show") == 0 ? show(family, index) : bytes();
}

static int command(int count, char **words)
{
    static const struct {
        const char *name;
        int (*run)(void);
    } commands[] = {{"gate", gate},         {"long", long_run}, {"named", named}, {"null", null},
                    {"recorded", recorded}, {"faults", faults}, {"print", print}};
    for (size_t i = 0; i < sizeof commands / sizeof commands[0]; i++)
        if (count == 1 && strcmp(words[0], commands[i].name) == 0)
            return commands[i].run();
    if (count == 3 && (strcmp(words[0], "show") == 0 || strcmp(words[0], "bytes") == 0))
        return with_trace(words);
    help(stderr);
    return USAGE;
}

static bool take_fault(const char *name)
{
    replay_fault_on = replay_fault_by_name(name);
    return replay_fault_on != REPLAY_FAULT_NONE;
}

int main(int count, char **words)
{
    int at = options_read(count, words, "replays", &seed, take_fault);
    if (at == 0)
        return USAGE;
    if (at < count && strcmp(words[at], "--help") == 0) {
        help(stdout);
        return OK;
    }
    setvbuf(stdout, NULL, _IOLBF, 0);
    return command(count - at, words + at);
}
