/* refused loop guard 0 12
 * The guard isn't the first thing in the loop: the compiler stores the variable whose address is taken before it. A
 * copy of the variable, made in the loop, mends it: uint32_t key = i; state_set(own, 20, &key, 4). */
#include "hook_api.h"

static uint8_t own[20];

EXPORT int64_t hook(uint32_t argument)
{
    hook_account(own, 20);
    for (uint32_t i = 0; _g(1, 21), i < 20; i++)
        if (state_set(own, 20, &i, 4) < 0)
            break;
    accept("", 0, 0);
}
