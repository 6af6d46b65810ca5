/* refused float locals 0
 * A double that is kept in a variable. */
#include "hook_api.h"

EXPORT int64_t hook(uint32_t argument)
{
    double number = (double)ledger_seq();
    accept("", 0, (int64_t)(number * number));
}
