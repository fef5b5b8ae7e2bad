/* Runs the library's replay and the second program's on the same traces, for a counter outside. */
#include "author.h"
#include "generate.h"
#include "replay.h"

#include <inttypes.h>
#include <stdio.h>
#include <stdlib.h>
#include <string.h>

enum { RUNNERS = 3, WORKLOADS = 6, SESSION_RECORDS = 4000 };

typedef uint32_t replay_function(const uint8_t *trace, size_t trace_len, uint32_t limit, uint8_t *out,
                                 size_t out_len, uint64_t *written);

/* The second program with a register's words searched instead of its bits. */
replay_function second_replay_words;

static const struct {
    const char *name;
    replay_function *replay;
} runners[RUNNERS] = {{"model", gg_replay}, {"bits", second_replay}, {"words", second_replay_words}};

/* A trace, and how many of its records a replay looks at. */
struct workload {
    const char *name, *words;
    struct trace trace;
    uint32_t records;
};

static struct workload work;
static struct author author;
static uint8_t out[GG_REPLAY_ROOM(GG_REPLAY_LIMIT)];
static uint64_t sum; /* of every length told */

/* A session with nothing refused for its fields or its mode, of so many records or bytes. */
static void write_session(uint32_t records, size_t length)
{
    struct random r = random_for(1, 0, 0);
    author_start(&author, &work.trace, STYLE_DELIVERY, true);
    author_write(&author, &r, records, length - 8);
    if (length < TRACE_ROOM)
        author_fill(&author, length);
}

static void session(void)
{
    write_session(SESSION_RECORDS, TRACE_ROOM);
}

/* Makes a record's length one too many; the replay ends there. */
static void damage(uint32_t record)
{
    trace_of(&work.trace)[trace_place(&work.trace, record) + 1]++;
    work.records = record + 1;
}

static void damaged(void)
{
    write_session(UINT32_MAX, TRACE_MOST);
    damage(trace_count(&work.trace) / 2);
}

static void damaged_late(void)
{
    write_session(UINT32_MAX, TRACE_MOST);
    damage(trace_count(&work.trace) - 1);
}

static void noise(void)
{
    struct random r = random_for(1, 1, 0);
    trace_start(&work.trace);
    generate_bytes(&r, trace_of(&work.trace) + 1, TRACE_MOST);
    trace_seal(&work.trace, TRACE_MOST);
    work.records = 1;
}

/* The shortest records there are; all but the first are refused. */
static void entries(void)
{
    author_start(&author, &work.trace, STYLE_DELIVERY, true);
    author_fill(&author, TRACE_MOST);
}

/* Reads of the largest number, after a write that leaves it on the page. */
static void numbers(void)
{
    struct gg_event entry = gg_entry(CONTROLS_R, 0, NULL), read = gg_memory_read(0x320, 4, 0);
    struct gg_event mark = gg_memory_write(0x320, 4, UINT32_MAX, 0);
    trace_start(&work.trace);
    trace_add_controls(&work.trace, &entry);
    trace_add_event(&work.trace, &entry);
    trace_add_event(&work.trace, &mark);
    trace_add_event(&work.trace, &entry);
    for (unsigned left = SESSION_RECORDS; left > 0; left--)
        trace_add_event(&work.trace, &read);
}

static const struct {
    const char *name, *words;
    void (*make)(void);
} rows[WORKLOADS] = {
    {"session", "4,000 records of a session", session},
    {"damaged", "61,440 bytes of a session, damaged in its midst", damaged},
    {"damaged-late", "61,440 bytes of a session, its last record damaged", damaged_late},
    {"noise", "61,440 random bytes, of which no record can be read", noise},
    {"entries", "61,440 bytes of refused entries, 10,000 of them read", entries},
    {"numbers", "4,000 reads of FFFFFFFFH", numbers},
};

static void make(unsigned which)
{
    work.name = rows[which].name;
    work.words = rows[which].words;
    work.records = 0;
    rows[which].make();
    if (work.records == 0)
        work.records = trace_count(&work.trace);
    if (work.records > GG_REPLAY_LIMIT)
        work.records = GG_REPLAY_LIMIT;
}

static void run(unsigned runner, uint64_t rounds)
{
    uint64_t written;
    for (; rounds > 0; rounds--) {
        runners[runner].replay(trace_at(&work.trace), work.trace.length, GG_REPLAY_LIMIT, out, sizeof out,
                               &written);
        sum += written;
    }
}

/* Whether every runner writes the model's text, so that figures compare equal work; names one that doesn't. */
static bool agree(void)
{
    static uint8_t model[sizeof out];
    uint64_t written, other;
    gg_replay(trace_at(&work.trace), work.trace.length, GG_REPLAY_LIMIT, model, sizeof model, &written);
    for (unsigned runner = 1; runner < RUNNERS; runner++) {
        runners[runner].replay(trace_at(&work.trace), work.trace.length, GG_REPLAY_LIMIT, out, sizeof out,
                               &other);
        if (written == 0 || written != other || memcmp(model, out, written) != 0) {
            printf("%-13s %s and the model write different texts\n", work.name, runners[runner].name);
            return false;
        }
    }
    return true;
}

static int all_agree(void)
{
    int status = 0;
    for (unsigned which = 0; which < WORKLOADS; which++) {
        make(which);
        if (!agree())
            status = 1;
    }
    return status;
}

static int list(void)
{
    for (unsigned which = 0; which < WORKLOADS; which++) {
        make(which);
        printf("%-13s %5" PRIu32 " %s\n", work.name, work.records, work.words);
    }
    return 0;
}

static int list_runners(void)
{
    for (unsigned runner = 0; runner < RUNNERS; runner++)
        printf("%s\n", runners[runner].name);
    return 0;
}

/* Runs one workload for a stated number of rounds and nothing else, for a counter outside. */
static int only(const char *runner_name, const char *name, const char *rounds)
{
    for (unsigned which = 0; which < WORKLOADS; which++)
        for (unsigned runner = 0; runner < RUNNERS; runner++) {
            if (strcmp(rows[which].name, name) || strcmp(runners[runner].name, runner_name))
                continue;
            make(which);
            run(runner, strtoull(rounds, NULL, 10));
            return sum == 0;
        }
    return 2;
}

static int help(FILE *to, int status)
{
    fputs("usage: replay_bench --list                      names the workloads, their records, what they are\n"
          "       replay_bench --runners                   names the runners\n"
          "       replay_bench --agree                     says which workloads have different texts\n"
          "       replay_bench --only RUNNER NAME ROUNDS   runs one workload\n\n"
          "A round replays one trace into a buffer that is long enough for every text; the records counted\n"
          "are those looked at, one that can't be read among them. second/count.sh --replay counts.\n"
          "Runners: model  gg_replay of the static library\n"
          "         bits   the second program's replay, searching registers bit by bit\n"
          "         words  the second program's replay, searching registers word by word\n",
          to);
    return status;
}

int main(int count, char **words)
{
    if (count == 2 && strcmp(words[1], "--help") == 0)
        return help(stdout, 0);
    if (count == 2 && strcmp(words[1], "--list") == 0)
        return list();
    if (count == 2 && strcmp(words[1], "--runners") == 0)
        return list_runners();
    if (count == 2 && strcmp(words[1], "--agree") == 0)
        return all_agree();
    if (count == 5 && strcmp(words[1], "--only") == 0)
        return only(words[2], words[3], words[4]);
    return help(stderr, 2);
}
