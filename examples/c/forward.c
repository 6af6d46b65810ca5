/* Passes a tenth of each payment that comes in on to another account, and counts in the state SENT how many drops it
 * passed on, and in LOST how many it could not. Parameter:
 *   TO      20 bytes, the account
 * It fires on Payment, so on what it emits too: what the account itself sends passes. */
#include "hook_api.h"

/* The bytes of the payment that it emits, fields in order, and where in them it writes. */
enum { FIRST = 10, LAST = 16, AMOUNT = 21, FEE = 30, ACCOUNT = 75, DESTINATION = 97, DETAILS = 117, SIZE = 255 };

static uint8_t blob[SIZE] = {
    0x12, 0, 0,                               /* TransactionType: Payment */
    0x24, 0, 0, 0, 0,                         /* Sequence: 0 */
    0x20, 0x1a, [14] = 0x20, 0x1b,            /* FirstLedgerSequence, LastLedgerSequence */
    [20] = 0x61, 0x40, [29] = 0x68, 0x40,     /* Amount, Fee: in drops */
    [38] = 0x73, 33,                          /* SigningPubKey: 33 zeros */
    [73] = 0x81, 20, [95] = 0x83, 20,         /* Account, Destination; then EmitDetails */
};

static uint8_t own[20], sender[20], id[32], number[8];

/* Adds to a counter in the state. */
#define ADD(key, drops) add(key, sizeof(key) - 1, drops)
INLINE void add(const char *key, uint32_t length, int64_t drops)
{
    int64_t sum = state(0, 0, key, length);
    put_number(number, (uint64_t)((sum < 0 ? 0 : sum) + drops));
    int64_t kept = state_set(number, 8, key, length);
    if (kept < 0)
        rollback("no reserve", 10, kept);
}

EXPORT int64_t hook(uint32_t argument)
{
    hook_account(own, 20);
    otxn_field(sender, 20, FIELD_ACCOUNT);
    int64_t tenth = (otxn_field(0, 0, FIELD_AMOUNT) - NATIVE) / 10;
    if (same_account(own, sender) || tenth <= 0)
        accept("", 0, 0);

    hook_account(blob + ACCOUNT, 20);
    if (hook_param(blob + DESTINATION, 20, "TO", 2) != 20)
        rollback("no account", 10, 1);
    uint32_t now = (uint32_t)ledger_seq();
    put_short(blob + FIRST, now + 1);
    put_short(blob + LAST, now + 5);
    put_number(blob + AMOUNT, (uint64_t)(tenth + NATIVE));
    etxn_reserve(1);
    etxn_details(blob + DETAILS, SIZE - DETAILS);
    put_number(blob + FEE, (uint64_t)(etxn_fee_base(blob, SIZE) + NATIVE));
    int64_t emitted = emit(id, 32, blob, SIZE);
    if (emitted < 0)
        rollback("not emitted", 11, emitted);
    accept("", 0, tenth);
}

/* Called when the payment is settled: with 0 where a fee was taken for it, else with 1. */
EXPORT int64_t cbak(uint32_t argument)
{
    int64_t drops = otxn_field(0, 0, FIELD_AMOUNT) - NATIVE;
    if (argument)
        ADD("LOST", drops);
    else
        ADD("SENT", drops);
    accept("", 0, drops);
}
