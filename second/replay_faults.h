/* Wrong readings of a trace that the second program can be told to follow, one at a time. */
#ifndef REPLAY_FAULTS_H
#define REPLAY_FAULTS_H

/* Name in the source, name on the command line, the reading as it is then followed. */
#define REPLAY_FAULT_LIST(X)                                                                     \
    X(VERSION_2, "version-2-taken", "version 2 is taken too")                                    \
    X(VERSION_LAST, "version-after-limit", "a limit of 0 is looked at before the version")       \
    X(EMPTY_DONE, "empty-is-done", "a trace of no bytes is done 0")                              \
    X(SIZE_MORE, "size-61441-taken", "a trace of 61,441 bytes is replayed")                      \
    X(SIZE_LESS, "size-61440-bad", "a trace of 61,440 bytes isn't replayed")                     \
    X(SIZE_LAST, "size-after-records", "too long a trace has its lines before bad 0")            \
    X(SIZE_16, "size-16-bits", "a trace's length counts by its low 16 bits")                     \
    X(LENGTH_LITTLE, "length-little-endian", "a record's length is read little-endian")          \
    X(LENGTH_CUT, "cut-length-ends", "half a length field is the end of the trace")              \
    X(LENGTH_ZERO, "length-0-skipped", "a record of length 0 is passed over")                    \
    X(LENGTH_LONGER, "longer-record-taken", "a record may be longer than its kind's")            \
    X(LENGTH_SHORTER, "shorter-record-taken", "a record may be shorter than its kind's")         \
    X(BODY_SHORT, "cut-body-taken", "the last record may lack its last byte")                    \
    X(KIND_10, "kind-10-taken", "kind 10 is a request")                                          \
    X(CONTROLS_BIT, "controls-bit-9-taken", "bit 9 of the controls can be read")                 \
    X(READ_BIT, "read-flag-2-taken", "bit 2 of a memory read's flags can be read")               \
    X(WRITE_BIT, "write-flag-7-taken", "bit 7 of a memory write's flags can be read")            \
    X(BOUNDARY_BIT, "boundary-flag-3-taken", "bit 3 of a boundary's flags can be read")          \
    X(FETCH_BAD, "fetch-write-bad", "a write with the fetch flag can't be read")                 \
    X(BOUNDS_BAD, "out-of-bounds-bad", "a record with a field out of bounds can't be read")      \
    X(FLAGS_LITTLE, "controls-little-endian", "the controls are read little-endian")             \
    X(THRESHOLD_LITTLE, "threshold-little-endian", "the threshold is read little-endian")        \
    X(EXITS_LITTLE, "exits-little-endian", "an EOI-exit word is read little-endian")             \
    X(EXITS_REVERSED, "exits-reversed", "the EOI-exit words come last word first")               \
    X(OFFSET_LITTLE, "offset-little-endian", "an offset is read little-endian")                  \
    X(VALUE_LITTLE, "value-little-endian", "a memory write's value is read little-endian")       \
    X(INDEX_LITTLE, "index-little-endian", "an MSR's index is read little-endian")               \
    X(MSR_LITTLE, "msr-value-little-endian", "WRMSR's value is read little-endian")              \
    X(SIZE_SWAPPED, "size-and-flags-swapped", "a memory access has its flags before its size")   \
    X(CR8_SWAPPED, "cr8-register-first", "MOV to CR8 has its register before its value")         \
    X(ACTIVITY_FLAGS, "activity-from-flags", "a boundary's activity is its flags byte")          \
    X(IF_SWAPPED, "if-and-sti-swapped", "a boundary has blocking by STI at bit 0, IF at bit 1")  \
    X(MOV_SS_DROPPED, "mov-ss-dropped", "bit 2 of a boundary's flags isn't handed on")           \
    X(CONTROLS_REFUSED, "controls-refused-in-guest", "controls in guest mode are refusal 3")     \
    X(CONTROLS_SILENT, "controls-not-printed", "controls are counted and have no line")          \
    X(CONTROLS_UNCOUNTED, "controls-not-counted", "controls have a line and aren't counted")     \
    X(CONTROLS_AT_ONCE, "controls-at-once", "controls are in force at once")                     \
    X(CONTROLS_ONCE, "controls-for-one-entry", "controls are zero again after an entry")         \
    X(CONTROLS_BEFORE, "shadow-before-controls", "the TPR shadow is on before the first kind 0") \
    X(LIMIT_MORE, "limit-one-more", "the run stops one record late")                             \
    X(LIMIT_LESS, "limit-one-less", "the run stops one record early")                            \
    X(LIMIT_BAD, "limit-then-bad", "at the limit the next record still has to be readable")      \
    X(LIMIT_COUNT, "done-tells-limit", "done tells the limit where the trace ends before it")    \
    X(BAD_BEFORE, "bad-tells-last-good", "bad tells the last record that can be read")           \
    X(FROM_ZERO, "numbered-from-0", "the first record is number 0")                              \
    X(DIGIT_DROPPED, "last-digit-dropped", "a number of several digits lacks its last")          \
    X(DIGITS_31, "numbers-31-bits", "a number is printed by its low 31 bits")                    \
    X(NO_LAST_END, "no-last-line-end", "the last line has no end")                               \
    X(SHORT_TOUCHED, "short-buffer-touched", "a buffer too short gets its first byte")           \
    X(SHORT_TAKEN, "one-byte-short-taken", "a text one byte too long is written")                \
    X(EXACT_SHORT, "exact-buffer-short", "a buffer of exactly the text's length is too short")   \
    X(SHORT_LENGTH, "short-tells-length", "where the buffer is too short, the length is told")

#define REPLAY_FAULT_NUMBER(symbol, name, words) REPLAY_FAULT_##symbol,
enum replay_fault { REPLAY_FAULT_NONE, REPLAY_FAULT_LIST(REPLAY_FAULT_NUMBER) REPLAY_FAULT_END };
#undef REPLAY_FAULT_NUMBER

/* The fault that is on; REPLAY_FAULT_NONE is the replay as the documents have it. */
extern enum replay_fault replay_fault_on;

enum replay_fault replay_fault_by_name(const char *name);
const char *replay_fault_name(enum replay_fault fault);
void replay_fault_print_all(void);

/* A build for timing leaves every fault out, so that none costs an instruction. */
#ifdef WITHOUT_FAULTS
#define REPLAY_FAULT(symbol) 0
#else
#define REPLAY_FAULT(symbol) (replay_fault_on == REPLAY_FAULT_##symbol)
#endif

#endif
