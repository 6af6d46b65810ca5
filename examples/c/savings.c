/* Savings: a share of each payment that comes in is put aside, and the account can't pay it out. The number of drops
 * put aside is kept in the state SAVED, eight bytes. Parameter:
 *   SHARE   1 byte, the share in percent
 * It fires on Payment. */
#include "hook_api.h"

static uint8_t own[20], sender[20], keylet[34], number[8];

/* What the account has: its own entry of the ledger, in a slot. */
INLINE int64_t balance(void)
{
    util_keylet(keylet, 34, 3, own, 20, 0, 0, 0, 0);
    slot_set(keylet, 34, 1);
    slot_subfield(1, FIELD_BALANCE, 2);
    return slot(0, 0, 2) - NATIVE;
}

EXPORT int64_t hook(uint32_t argument)
{
    hook_account(own, 20);
    otxn_field(sender, 20, FIELD_ACCOUNT);
    int64_t amount = otxn_field(0, 0, FIELD_AMOUNT);
    if (amount < 0)
        rollback("not in drops", 12, 1);
    amount -= NATIVE;

    int64_t saved = state(0, 0, "SAVED", 5);
    if (saved < 0)
        saved = 0;
    if (same_account(own, sender)) {
        if (balance() - amount < saved)
            rollback("saved", 5, 2);
        accept("", 0, 0);
    }

    int64_t share = hook_param(0, 0, "SHARE", 5);
    if (share < 0 || share > 100)
        rollback("no share", 8, 3);
    saved += amount / 100 * share;
    put_number(number, (uint64_t)saved);
    int64_t kept = state_set(number, 8, "SAVED", 5);
    if (kept < 0)
        rollback("no reserve", 10, kept);
    accept("", 0, saved);
}
