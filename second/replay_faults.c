/* Names of the replay's seeded faults. */
#include "replay_faults.h"

#include "fault_rows.h"

enum replay_fault replay_fault_on = REPLAY_FAULT_NONE;

#define REPLAY_FAULT_ROW(symbol, name, words) {name, words},
static const struct fault_row rows[] = {{"none", "no fault"}, REPLAY_FAULT_LIST(REPLAY_FAULT_ROW)};
#undef REPLAY_FAULT_ROW

enum replay_fault replay_fault_by_name(const char *name)
{
    return (enum replay_fault)fault_row_by_name(rows, REPLAY_FAULT_END, name);
}

const char *replay_fault_name(enum replay_fault fault)
{
    return rows[fault].name;
}

void replay_fault_print_all(void)
{
    fault_rows_print(rows, REPLAY_FAULT_END);
}
