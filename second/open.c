/* The table of open registers and its rule. */
#include "open.h"

#include "faults.h"
#include "terms.h"

/* Four-byte registers open with APIC-register virtualization, as runs of rows 10H apart. */
static const struct {
    uint16_t first, last;
    bool writable;
} open_rows[] = {
    {0x020, 0x020, true},  {0x030, 0x030, false}, {0x080, 0x080, true},
    {0x0B0, 0x0B0, true},  {0x0D0, 0x0F0, true},  {0x100, 0x270, false},
    {0x280, 0x280, true},  {0x300, 0x380, true},  {0x3E0, 0x3E0, true},
};

static bool open_row(unsigned row, bool write)
{
    if (FAULT(OPEN_NO_3E0) && row == 0x3E0)
        return false;
    if (FAULT(OPEN_WRITE_030) && row == 0x030)
        return true;
    for (unsigned i = 0; i < sizeof open_rows / sizeof open_rows[0]; i++)
        if (open_rows[i].first <= row && row <= open_rows[i].last)
            return open_rows[i].writable || !write;
    return false;
}

bool open_offset(uint32_t controls, unsigned offset, bool write)
{
    if (in(controls, REGISTERS))
        return offset % 16 < 4 && open_row(offset - offset % 16, write);
    if (offset == VTPR)
        return true;
    if (FAULT(OPEN_EOI_BYTES) && offset / 4 == VEOI / 4 && in(controls, DELIVERY))
        return true;
    return in(controls, DELIVERY) && (offset == VEOI || offset == ICR_LOW);
}
