/* A firewall for the payments that come in. Parameters, of which any may be missing:
 *   MIN     8 bytes, a number of drops: no smaller payment comes in
 *   BLOCK   20 bytes, an account: no payment of it comes in
 * What the account itself sends passes. It fires on Payment. */
#include "hook_api.h"

static uint8_t own[20], sender[20], blocked[20];

INLINE int same(uint32_t id, const uint8_t *left, const uint8_t *right)
{
    for (uint32_t i = 0; _g(id, 21), i < 20; i++)
        if (left[i] != right[i])
            return 0;
    return 1;
}

EXPORT int64_t hook(uint32_t argument)
{
    hook_account(own, 20);
    otxn_field(sender, 20, FIELD_ACCOUNT);
    if (same(1, own, sender))
        accept("own", 3, 1);
    if (hook_param(blocked, 20, "BLOCK", 5) == 20 && same(2, blocked, sender))
        rollback("blocked", 7, 2);
    int64_t amount = otxn_field(0, 0, FIELD_AMOUNT);
    if (amount < 0)
        rollback("not in drops", 12, 3);
    if (amount - NATIVE < hook_param(0, 0, "MIN", 3))
        rollback("too small", 9, 4);
    accept("", 0, 0);
}
