/* Counts of what a run of replays has exercised. */
#ifndef REPLAY_TALLY_H
#define REPLAY_TALLY_H

#include "attempt.h"

enum { LINE_ANSWERS = QUIET + 1, LINE_REASONS = 64, LINE_REFUSALS = 5, LINE_CHECKS = 7 };

/* Why no record is read; how a text is done: at the end, or at the limit by what follows. */
enum { NO_VERSION, OTHER_VERSION, TOO_LONG, NO_RECORDS };
enum { DONE_AT_END, DONE_BEFORE_END, DONE_BEFORE_RECORD, DONE_BEFORE_BAD, DONES };

struct replay_tally {
    uint64_t traces, records;
    uint64_t answers[RECORD_KINDS][LINE_ANSWERS];
    uint64_t refusals[RECORD_KINDS][LINE_REFUSALS];
    uint64_t reasons[LINE_REASONS], checks[LINE_CHECKS];
    uint64_t controls_in[2]; /* in root and in guest mode */
    uint64_t bare_entries;   /* before the first controls */
    /* Records that can't be read; of these by kind, those with an unused flag or with another length. */
    uint64_t bad[READINGS];
    uint64_t unused[RECORD_KINDS], shorter[RECORD_KINDS], longer[RECORD_KINDS];
    uint64_t no_records[NO_RECORDS], done[DONES], buffers[BUFFERS];
    uint64_t most_records, largest; /* in one text, and of the numbers printed */
};

/* Counts a trace with the text that it has, and a call with another buffer. */
void replay_tally_add(struct replay_tally *tally, const struct attempt *a, const struct result *result);
void replay_tally_buffer(struct replay_tally *tally, enum buffer buffer);

void replay_tally_print(const struct replay_tally *tally);

/* Prints a line for everything that the run leaves at 0; returns their number. */
unsigned replay_tally_missing(const struct replay_tally *tally);

#endif
