/* Names of seeded faults, looked up and listed. */
#include "fault_rows.h"

#include <stdio.h>
#include <string.h>

int fault_row_by_name(const struct fault_row *rows, int count, const char *name)
{
    for (int row = 1; row < count; row++)
        if (strcmp(rows[row].name, name) == 0)
            return row;
    return 0;
}

void fault_rows_print(const struct fault_row *rows, int count)
{
    for (int row = 1; row < count; row++)
        printf("%-30s %s\n", rows[row].name, rows[row].words);
}
