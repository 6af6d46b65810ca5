/* refused own call 0 3
 * A function that isn't INLINE, and that is called twice. */
#include "hook_api.h"

__attribute__((noinline)) static int64_t twice(int64_t number)
{
    return number * 2;
}

EXPORT int64_t hook(uint32_t argument)
{
    accept("", 0, twice(ledger_seq()) + twice(ledger_last_time()));
}
