/* The offsets that may be redirected. */
#ifndef OPEN_H
#define OPEN_H

#include <stdbool.h>
#include <stdint.h>

/* Whether an offset may be redirected; without control 3 only a register's first byte may. */
bool open_offset(uint32_t controls, unsigned offset, bool write);

#endif
