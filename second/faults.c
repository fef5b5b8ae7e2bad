/* Names of the seeded faults. */
#include "faults.h"

#include "fault_rows.h"

enum fault fault_on = FAULT_NONE;

#define FAULT_ROW(symbol, name, words) {name, words},
static const struct fault_row rows[] = {{"none", "no fault"}, FAULT_LIST(FAULT_ROW)};
#undef FAULT_ROW

enum fault fault_by_name(const char *name)
{
    return (enum fault)fault_row_by_name(rows, FAULT_END, name);
}

const char *fault_name(enum fault fault)
{
    return rows[fault].name;
}

void fault_print_all(void)
{
    fault_rows_print(rows, FAULT_END);
}
