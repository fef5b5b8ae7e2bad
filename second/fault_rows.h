/* A table of seeded faults: row 0 is none, the others have a name and the rule as it is then followed. */
#ifndef FAULT_ROWS_H
#define FAULT_ROWS_H

struct fault_row {
    const char *name, *words;
};

/* The row of a name, 0 where there is none. */
int fault_row_by_name(const struct fault_row *rows, int count, const char *name);

void fault_rows_print(const struct fault_row *rows, int count);

#endif
