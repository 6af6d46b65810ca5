/* refused loop guard 0 36
 * A loop without a guard. */
#include "hook_api.h"

static uint8_t own[20];

EXPORT int64_t hook(uint32_t argument)
{
    hook_account(own, 20);
    uint32_t sum = 0;
    for (uint32_t i = 0; i < argument; i++)
        sum += own[i];
    accept("", 0, sum);
}
