/* refused export
 * flags: -Wl,--export=helper
 * Another function is exported. */
#include "hook_api.h"

int64_t helper(uint32_t argument)
{
    return argument;
}

EXPORT int64_t hook(uint32_t argument)
{
    accept("", 0, argument);
}
