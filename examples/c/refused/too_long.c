/* refused too long
 * A table of 70,000 bytes is part of the code. */
#include "hook_api.h"

static uint8_t table[70000] = {[0 ... 69999] = 1};

EXPORT int64_t hook(uint32_t argument)
{
    accept(table, 1, table[argument]);
}
