/* Times the model and the second program on the same workloads in one run. */
#include "counter.h"
#include "edge.h"
#include "workload.h"

#include <inttypes.h>
#include <stdio.h>
#include <stdlib.h>
#include <string.h>
#include <time.h>

enum { RUNNERS = 5, TRIES = 5 };

typedef uint32_t bytes_function(uint8_t *, size_t, uint8_t *, size_t, const uint8_t *, size_t, uint64_t *,
                                uint64_t *);
typedef struct outcome fields_function(struct cpu *, uint8_t *, size_t, const struct happening *);
typedef uint32_t bytes_posting(uint8_t *, size_t, uint8_t *, size_t, uint8_t *, size_t, uint32_t, uint64_t *,
                               uint64_t *);
typedef struct outcome fields_posting(struct cpu *, uint8_t *, size_t, uint8_t *, size_t, uint32_t);

/* The second program with a register's words searched, and posted words taken, instead of bits. */
bytes_function second_step_words;
fields_function oracle_step_words;
bytes_posting second_external_interrupt_words;
fields_posting oracle_external_interrupt_words;

/* A workload with room for its running state, in bytes and in the second program's fields. */
struct bench {
    struct workload work;
    struct gg_record record;
    uint8_t page[GG_PAGE_LENGTH];
    uint8_t descriptor[GG_DESCRIPTOR_LENGTH];
    struct cpu cpu;
    struct happening happenings[MOST_EVENTS];
    uint64_t sum; /* of every number answered */
};

struct figures {
    double ns, instructions;
};

static bool counting;

static void reset(struct bench *b)
{
    b->record = b->work.record;
    memcpy(b->page, b->work.page, sizeof b->page);
    b->cpu = edge_cpu((const uint8_t *)&b->record, sizeof b->record);
    for (unsigned i = 0; i < b->work.count; i++)
        b->happenings[i] = edge_happening((const uint8_t *)&b->work.events[i], sizeof b->work.events[i]);
    b->sum = 0;
}

static void run_bytes(struct bench *b, uint64_t rounds, bytes_function *step)
{
    uint64_t first, second, sum = 0;
    uint8_t *record = (uint8_t *)&b->record;
    for (; rounds > 0; rounds--)
        for (unsigned i = 0; i < b->work.count; i++) {
            sum += step(b->page, sizeof b->page, record, sizeof b->record,
                        (const uint8_t *)&b->work.events[i], sizeof b->work.events[i], &first, &second);
            sum += first + second;
            if (b->work.restores_mode)
                b->record.mode = b->work.record.mode;
        }
    b->sum += sum;
}

static void run_fields(struct bench *b, uint64_t rounds, fields_function *step)
{
    uint64_t sum = 0;
    for (; rounds > 0; rounds--)
        for (unsigned i = 0; i < b->work.count; i++) {
            struct outcome outcome = step(&b->cpu, b->page, sizeof b->page, &b->happenings[i]);
            sum += outcome.answer + outcome.first + outcome.second;
            if (b->work.restores_mode)
                b->cpu.mode = b->work.record.mode;
        }
    b->sum += sum;
}

/* The sum has RVI too, since every posting is quiet. */
static void post_bytes(struct bench *b, uint64_t rounds, bytes_posting *interrupt)
{
    uint64_t first, second, sum = 0;
    uint8_t *record = (uint8_t *)&b->record;
    for (; rounds > 0; rounds--) {
        memcpy(b->descriptor, b->work.descriptor, sizeof b->descriptor);
        sum += interrupt(b->page, sizeof b->page, record, sizeof b->record, b->descriptor,
                         sizeof b->descriptor, b->work.record.notification_vector, &first, &second);
        sum += first + second;
    }
    b->sum += sum + b->record.rvi;
}

static void post_fields(struct bench *b, uint64_t rounds, fields_posting *interrupt)
{
    uint64_t sum = 0;
    for (; rounds > 0; rounds--) {
        memcpy(b->descriptor, b->work.descriptor, sizeof b->descriptor);
        struct outcome outcome = interrupt(&b->cpu, b->page, sizeof b->page, b->descriptor,
                                           sizeof b->descriptor, b->work.record.notification_vector);
        sum += outcome.answer + outcome.first + outcome.second;
    }
    b->sum += sum + b->cpu.rvi;
}

static const char *const runner_names[RUNNERS] = {"model", "bytes", "bytes-words", "bits", "words"};

static void run_events(struct bench *b, unsigned runner, uint64_t rounds)
{
    switch (runner) {
    case 0:
        run_bytes(b, rounds, gg_step);
        break;
    case 1:
        run_bytes(b, rounds, second_step);
        break;
    case 2:
        run_bytes(b, rounds, second_step_words);
        break;
    case 3:
        run_fields(b, rounds, oracle_step);
        break;
    default:
        run_fields(b, rounds, oracle_step_words);
    }
}

static void run_postings(struct bench *b, unsigned runner, uint64_t rounds)
{
    switch (runner) {
    case 0:
        post_bytes(b, rounds, gg_external_interrupt);
        break;
    case 1:
        post_bytes(b, rounds, second_external_interrupt);
        break;
    case 2:
        post_bytes(b, rounds, second_external_interrupt_words);
        break;
    case 3:
        post_fields(b, rounds, oracle_external_interrupt);
        break;
    default:
        post_fields(b, rounds, oracle_external_interrupt_words);
    }
}

static void run(struct bench *b, unsigned runner, uint64_t rounds)
{
    if (b->work.posts)
        run_postings(b, runner, rounds);
    else
        run_events(b, runner, rounds);
}

static double now_ns(void)
{
    struct timespec now;
    timespec_get(&now, TIME_UTC);
    return 1e9 * (double)now.tv_sec + (double)now.tv_nsec;
}

/* The number of rounds that take about this long. */
static uint64_t rounds_for(struct bench *b, unsigned runner, double ns)
{
    uint64_t rounds = 1;
    for (;; rounds *= 2) {
        double start = now_ns();
        run(b, runner, rounds);
        if (now_ns() - start > ns / 2)
            return rounds;
    }
}

/* The best of a few tries, since other work on the machine only ever adds time. */
static struct figures measure(struct bench *b, unsigned runner)
{
    reset(b);
    uint64_t rounds = rounds_for(b, runner, 2e7);
    double events = (double)rounds * b->work.count;
    struct figures best = {1e18, 1e18};
    for (int again = 0; again < TRIES; again++) {
        uint64_t counted = counting ? counter_read() : 0;
        double start = now_ns();
        run(b, runner, rounds);
        double ns = (now_ns() - start) / events;
        double instructions = counting ? (double)(counter_read() - counted) / events : 0;
        best.ns = ns < best.ns ? ns : best.ns;
        best.instructions = instructions < best.instructions ? instructions : best.instructions;
    }
    return best;
}

static uint64_t sum_of(struct bench *b, unsigned runner)
{
    reset(b);
    run(b, runner, 3);
    return b->sum;
}

/* Whether every runner answers as the model does, so that figures compare equal work; names one that doesn't. */
static bool agree(struct bench *b)
{
    uint64_t sum = sum_of(b, 0);
    for (unsigned runner = 1; runner < RUNNERS; runner++)
        if (sum_of(b, runner) != sum) {
            printf("%-13s %s and the model answer differently\n", b->work.name, runner_names[runner]);
            return false;
        }
    return true;
}

static int all_agree(void)
{
    static struct bench b;
    int status = 0;
    for (unsigned which = 0; which < WORKLOADS; which++) {
        workload_make(&b.work, which);
        if (!agree(&b))
            status = 1;
    }
    return status;
}

static void print_head(void)
{
    printf("%-13s %-13s", "per event", "unit");
    for (unsigned runner = 0; runner < RUNNERS; runner++)
        printf("%12s", runner_names[runner]);
    for (unsigned runner = 1; runner < RUNNERS; runner++)
        printf("%*s/%s", 12 - (int)strlen(runner_names[runner]), "", runner_names[runner]);
    printf("\n");
}

static void print_row(const char *name, const char *unit, const double *values)
{
    printf("%-13s %-13s", name, unit);
    for (unsigned runner = 0; runner < RUNNERS; runner++)
        printf("%12.1f", values[runner]);
    for (unsigned runner = 1; runner < RUNNERS; runner++)
        printf("%13.2f", values[0] / values[runner]);
    printf("\n");
}

static int report(void)
{
    static struct bench b;
    int status = 0;
    print_head();
    for (unsigned which = 0; which < WORKLOADS; which++) {
        double ns[RUNNERS], instructions[RUNNERS];
        workload_make(&b.work, which);
        if (!agree(&b)) {
            status = 1;
            continue;
        }
        for (unsigned runner = 0; runner < RUNNERS; runner++) {
            struct figures figures = measure(&b, runner);
            ns[runner] = figures.ns;
            instructions[runner] = figures.instructions;
        }
        print_row(b.work.name, "ns", ns);
        if (counting)
            print_row("", "instructions", instructions);
    }
    return status;
}

static int list(void)
{
    static struct workload w;
    for (unsigned which = 0; which < WORKLOADS; which++) {
        workload_make(&w, which);
        printf("%-13s %2u %s\n", w.name, w.count, w.words);
    }
    return 0;
}

static int runners(void)
{
    for (unsigned runner = 0; runner < RUNNERS; runner++)
        printf("%s\n", runner_names[runner]);
    return 0;
}

/* Runs one workload for a stated number of rounds and nothing else, for a counter outside. */
static int only(const char *runner_name, const char *name, const char *rounds)
{
    static struct bench b;
    for (unsigned which = 0; which < WORKLOADS; which++)
        for (unsigned runner = 0; runner < RUNNERS; runner++) {
            workload_make(&b.work, which);
            if (strcmp(b.work.name, name) || strcmp(runner_names[runner], runner_name))
                continue;
            reset(&b);
            run(&b, runner, strtoull(rounds, NULL, 10));
            return b.sum == 0;
        }
    return 2;
}

static int help(FILE *to, int status)
{
    fputs("usage: bench                             times every workload and prints ratios\n"
          "       bench --emulated                  the same, for a run in an emulator\n"
          "       bench --list                      names the workloads, their events, what they do\n"
          "       bench --runners                   names the runners\n"
          "       bench --agree                     says which workloads the runners answer differently\n"
          "       bench --only RUNNER NAME ROUNDS   runs one workload, for a counter outside\n\n"
          "Runners: model        the proved model, through the static library\n"
          "         bytes        the second program behind the same bytes, searching bit by bit\n"
          "         bytes-words  the second program behind the same bytes, searching word by word\n"
          "         bits         the second program on its own fields, searching bit by bit\n"
          "         words        the second program on its own fields, searching word by word\n",
          to);
    return status;
}

int main(int count, char **words)
{
    if (count == 2 && strcmp(words[1], "--help") == 0)
        return help(stdout, 0);
    if (count == 2 && strcmp(words[1], "--list") == 0)
        return list();
    if (count == 2 && strcmp(words[1], "--runners") == 0)
        return runners();
    if (count == 2 && strcmp(words[1], "--agree") == 0)
        return all_agree();
    if (count == 5 && strcmp(words[1], "--only") == 0)
        return only(words[2], words[3], words[4]);
    bool emulated = count == 2 && strcmp(words[1], "--emulated") == 0;
    if (count != 1 && !emulated)
        return help(stderr, 2);
    counting = !emulated && counter_open();
    if (emulated)
        printf("the programs run in an emulator: only the ratios mean something\n");
    else if (!counting)
        printf("instructions: not available here; second/count.sh counts them\n");
    return report();
}
