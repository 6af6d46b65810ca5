/* refused float type 3
 * A function of a double. Amounts are numbers of drops, or decimals by the calls float_... */
#include "hook_api.h"

__attribute__((noinline)) static int64_t half(double number)
{
    return (int64_t)(number / 2);
}

EXPORT int64_t hook(uint32_t argument)
{
    accept("", 0, half((double)ledger_seq()));
}
