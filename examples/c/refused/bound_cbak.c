/* refused bound cbak 240033
 * The same in the callback. */
#include "hook_api.h"

EXPORT int64_t hook(uint32_t argument)
{
    accept("", 0, 0);
}

EXPORT int64_t cbak(uint32_t argument)
{
    int64_t sum = 0;
    for (uint32_t i = 0; _g(1, 10001), i < 10000; i++)
        sum += ledger_seq();
    accept("", 0, sum);
}
