/* Wrong rules that the second program can be told to follow, one at a time. */
#ifndef FAULTS_H
#define FAULTS_H

/* Name in the source, name on the command line, the rule as it is then followed. */
#define FAULT_LIST(X)                                                                            \
    X(ICR_RESERVED, "icr-11-14-reserved", "bits 11 and 14 of VICR_LO must be 0 as well")         \
    X(ICR_SPARE, "icr-13-spare", "bit 13 of VICR_LO isn't looked at")                            \
    X(ICR_SHORTHAND, "icr-shorthand", "bits 19:18 of VICR_LO aren't looked at")                  \
    X(EOI_NEW_SVI, "eoi-exit-of-new-svi", "an EOI looks at the EOI-exit bit of the new SVI")     \
    X(EOI_EVALUATES, "eoi-exit-evaluates", "evaluation follows an EOI exit")                     \
    X(EOI_KEEPS_BIT, "eoi-keeps-bit", "an EOI leaves the service bit set")                       \
    X(EOI_KEEPS_SVI, "eoi-keeps-svi", "an EOI keeps SVI where VISR is then empty")               \
    X(EVALUATE_BYTES, "evaluate-whole-bytes", "evaluation compares whole bytes")                 \
    X(EVALUATE_WINDOW, "evaluate-in-window", "evaluation ignores interrupt-window exiting")      \
    X(EXIT_SKIPS_STORE, "exit-56-skips-store", "a write followed by exit 56 isn't stored")       \
    X(PPR_TASK_BYTE, "ppr-vtpr-byte", "VPPR is VTPR's byte even when SVI's class is larger")     \
    X(PPR_TIE, "ppr-tie", "VTPR must have the larger class to decide VPPR")                      \
    X(PPR_NARROW, "ppr-one-byte", "PPR virtualization writes one byte of VPPR")                  \
    X(CHECK_ORDER, "entry-check-order", "check 2 is made before check 1")                        \
    X(CHECK_6_DROPPED, "entry-check-6-dropped", "check 6 passes whatever the threshold")         \
    X(CHECK_6_ACCESSES, "entry-check-6-with-accesses", "check 6 is made with control 1 on too")  \
    X(CHECK_6_FIRST, "entry-check-6-first", "check 6 is made before check 4")                    \
    X(CHECK_6_VPPR, "entry-check-6-by-vppr", "check 6 looks at VPPR's class")                    \
    X(CHECK_6_EXITS, "entry-exit-43-for-check-6", "exit 43 with control 1 off, and no check 6")  \
    X(CHECK_6_TAKES, "entry-check-6-takes-controls", "an entry refused by check 6 is stored")    \
    X(ENTRY_NO_43, "entry-no-exit-43", "an entry never exits below the threshold")               \
    X(ENTRY_43_DROPS, "entry-exit-43-drops-controls", "exit 43 on entry keeps the old controls") \
    X(ENTRY_NO_PPR, "entry-no-ppr", "an entry with VID skips PPR virtualization")                \
    X(CHECK_5_VID, "entry-check-5-without-vid", "check 5 takes posting without VID")             \
    X(CHECK_5_ACKNOWLEDGE, "entry-check-5-no-acknowledge", "check 5 doesn't ask for control 10") \
    X(CHECK_5_VECTOR, "entry-check-5-any-vector", "check 5 takes any notification vector")       \
    X(CHECK_5_OFF, "entry-check-5-posting-off", "check 5 tests the vector with posting off")     \
    X(CHECK_5_FIRST, "entry-check-5-first", "check 5 is made before check 4")                    \
    X(CHECK_5_LAST, "entry-check-5-last", "check 5 is made after check 6")                       \
    X(ENTRY_KEEPS_VECTOR, "entry-keeps-notification", "an entry leaves the notification vector") \
    X(ENTRY_LOW_BYTE, "entry-notification-byte", "an entry takes that vector's low byte alone")  \
    X(REQUEST_MAX, "request-sets-rvi", "a request makes RVI its vector, larger or not")          \
    X(FETCH_AS_READ, "fetch-qualified-as-read", "exit 44 on a fetch is qualified as a read")     \
    X(ALREADY_IGNORED, "already-virtualised-ignored", "the already-virtualised flag is ignored") \
    X(ACROSS, "access-may-run-over", "an access may run past its register's four bytes")         \
    X(OPEN_WRITE_030, "version-is-writable", "030 is open to writes")                            \
    X(OPEN_NO_3E0, "divide-is-closed", "3E0 isn't open")                                         \
    X(OPEN_EOI_BYTES, "veoi-bytes-open", "with VID alone the bytes 0B1 to 0B3 are open")         \
    X(VTPR_TOP, "vtpr-keeps-top", "a write to 080 leaves bytes 3:1 of VTPR")                     \
    X(VICR_HI_EXACT, "vicr-hi-exact", "a write to 311, 312 or 313 gives exit 56")                \
    X(CR8_REGISTER, "cr8-no-register", "exit 28's qualification lacks the register")             \
    X(CR8_DIRECTION, "cr8-no-direction", "exit 28's qualification lacks the direction")          \
    X(RDMSR_RANGE, "rdmsr-to-83f", "RDMSR is redirected up to 83FH only")                        \
    X(WRMSR_FAULT, "wrmsr-no-fault", "a value above 255 doesn't fault at 808H and 83FH")         \
    X(WRMSR_EOI, "wrmsr-eoi-any-value", "80BH takes any value up to 255")                        \
    X(WRMSR_NARROW, "wrmsr-four-bytes", "WRMSR stores four bytes")                               \
    X(WRMSR_NO_STORE, "wrmsr-83f-not-stored", "a self-IPI by WRMSR isn't stored at 3F0")         \
    X(THRESHOLD_BITS, "threshold-whole", "TPR virtualization compares the whole threshold")      \
    X(HLT_SHUT, "hlt-is-shut", "a boundary in HLT isn't open")                                   \
    X(MOV_SS_OPEN, "mov-ss-is-open", "blocking by MOV SS doesn't block")                         \
    X(DELIVERY_KEEPS, "delivery-keeps-request", "a delivery leaves the request bit set")         \
    X(DELIVERY_KEEPS_RVI, "delivery-keeps-rvi", "a delivery keeps RVI where VIRR is then empty") \
    X(DELIVERY_AGAIN, "delivery-stays-recognised", "a delivery leaves recognition on")           \
    X(EXIT_IN_GUEST, "exit-7-in-guest", "exit 7 leaves the processor in guest mode")             \
    X(LEAVE_IN_ROOT, "leave-in-root", "a leave is taken in root mode too")                       \
    X(LEAVE_GUEST, "leave-keeps-guest", "a leave keeps guest mode")                              \
    X(LEAVE_RECOGNISED, "leave-keeps-recognition", "a leave keeps recognition on")               \
    X(LEAVE_REQUEST, "leave-drops-rvi", "a leave makes RVI 0")                                   \
    X(LEAVE_BOUNDS, "leave-takes-any-record", "a leave doesn't look at the record's bounds")     \
    X(EXTERNAL_IN_ROOT, "external-in-root", "an external interrupt is taken in root mode too")   \
    X(EXTERNAL_EXITS, "external-never-passes", "external-interrupt exiting isn't looked at")     \
    X(EXIT_1_CLEARS, "exit-1-clears-outstanding", "exit 1 clears the outstanding bit")           \
    X(EXIT_1_VECTOR, "exit-1-qualified-by-vector", "exit 1's qualification is the vector")       \
    X(DESCRIPTOR_FIRST, "descriptor-length-first", "refusal 5 is tested before refusal 1")       \
    X(DESCRIPTOR_LAST, "descriptor-length-last", "refusal 5 is tested after refusal 3")          \
    X(DESCRIPTOR_LONGER, "descriptor-may-be-longer", "a descriptor above 64 bytes is taken")     \
    X(POSTING_OFF, "posting-without-control-9", "a posting doesn't ask for control 9")           \
    X(POSTING_VID, "posting-needs-vid", "a posting asks for VID")                                \
    X(POSTING_ACKNOWLEDGE, "posting-needs-acknowledge", "a posting asks for control 10")         \
    X(POSTING_LOW_BYTE, "posting-by-low-byte", "the notification vector's low byte is compared") \
    X(OUTSTANDING_ASKED, "posting-if-outstanding", "a posting asks for the outstanding bit")     \
    X(OUTSTANDING_KEPT, "posting-keeps-outstanding", "a posting leaves the outstanding bit set") \
    X(POSTING_CLEARS_BYTE, "posting-clears-byte-32", "a posting clears bits 7:1 of byte 32")     \
    X(POSTING_CLEARS_REST, "posting-clears-33-to-63", "a posting clears bytes 33 to 63")         \
    X(POSTING_KEEPS, "posting-keeps-highest", "a posting leaves the highest posted bit set")     \
    X(POSTING_REPLACES, "posting-replaces-virr", "posted bits replace those of VIRR")            \
    X(POSTING_NONE_255, "posting-none-is-255", "RVI becomes 255 where nothing is posted")        \
    X(POSTING_LOWERS, "posting-lowers-rvi", "RVI becomes the highest posted, larger or not")     \
    X(POSTING_RVI_OF_VIRR, "posting-rvi-of-virr", "RVI becomes VIRR's highest in a posting")     \
    X(POSTING_NO_EVALUATION, "posting-no-evaluation", "no evaluation follows a posting")         \
    X(NONE_IS_ZERO, "none-is-zero", "the search of an empty register answers vector 0")          \
    X(ZERO_IS_NONE, "zero-is-none", "the search of a register with bit 0 alone answers none")    \
    X(HIGHEST_OF_180, "highest-of-180", "the question takes base 180 too")                       \
    X(HIGHEST_BASE_FIRST, "highest-base-first", "the question tests its base before the page")   \
    X(MODE_FIRST, "mode-before-bounds", "refusal 3 is tested before refusal 2")                  \
    X(PAGE_LAST, "page-length-after-bounds", "refusal 1 is tested after refusal 2")              \
    X(RECORD_RESERVED, "record-reserved-taken", "a record's bytes 14 and 15 may be anything")    \
    X(ENTRY_RESERVED, "entry-reserved-taken", "an entry's bytes 14 and 15 may be anything")      \
    X(BOUNDS_CR8, "bounds-cr8", "a CR8 value above 15 is taken")                                 \
    X(BOUNDS_VALUE, "bounds-write-value", "a write's value may exceed its size")                 \
    X(BOUNDS_ACTIVITY, "bounds-activity", "activity 4 is taken")                                 \
    X(BOUNDS_FLAGS, "bounds-flags", "bit 11 of the flags is taken")                              \
    X(BOUNDS_RECORD, "bounds-record-notification", "a record's notification vector is a byte")   \
    X(BOUNDS_ENTRY, "bounds-entry-notification", "an entry's notification vector is a byte")     \
    X(BOUNDS_EXTERNAL, "bounds-external-vector", "an external interrupt takes any vector")

#define FAULT_NUMBER(symbol, name, words) FAULT_##symbol,
enum fault { FAULT_NONE, FAULT_LIST(FAULT_NUMBER) FAULT_END };
#undef FAULT_NUMBER

/* The fault that is on; FAULT_NONE is the second program as the documents have it. */
extern enum fault fault_on;

enum fault fault_by_name(const char *name);
const char *fault_name(enum fault fault);
void fault_print_all(void);

/* A build for timing leaves every fault out, so that none costs an instruction. */
#ifdef WITHOUT_FAULTS
#define FAULT(symbol) 0
#else
#define FAULT(symbol) (fault_on == FAULT_##symbol)
#endif

#endif
