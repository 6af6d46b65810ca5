/* Lets payments come in while the state OPEN isn't 0. What the account itself sends passes. It fires on Payment. */
#include "hook_api.h"

static uint8_t own[20], sender[20];

EXPORT int64_t hook(uint32_t argument)
{
    hook_account(own, 20);
    otxn_field(sender, 20, FIELD_ACCOUNT);
    if (!same_account(own, sender) && state(0, 0, "OPEN", 4) <= 0)
        rollback("closed", 6, 1);
    accept("", 0, 0);
}
