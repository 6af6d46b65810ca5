/* refused float code 0 3
 * A double that only the stack holds. */
#include "hook_api.h"

EXPORT int64_t hook(uint32_t argument)
{
    accept("", 0, (double)ledger_seq() * 0.3 > 10.5);
}
