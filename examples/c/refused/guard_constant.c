/* refused guard constant 0 8
 * The limit of a guard is no constant. */
#include "hook_api.h"

EXPORT int64_t hook(uint32_t argument)
{
    uint32_t turns = (uint32_t)ledger_seq();
    for (uint32_t i = 0; _g(1, turns), i < 20; i++)
        trace("", 0, "", 0, i);
    accept("", 0, 0);
}
