/* Opens and closes the gate (gate.c) of another account. Parameters of the transaction:
 *   GATE    20 bytes, the account
 *   OPEN    1 byte, 1 to open and 0 to close
 * and of the hook:
 *   SPACE   32 bytes, the namespace of the gate's hook
 * It fires on Invoke. That account must have granted it the writing. */
#include "hook_api.h"

static uint8_t gate[20], space[32], open[1];

EXPORT int64_t hook(uint32_t argument)
{
    otxn_param(gate, 20, "GATE", 4);
    otxn_param(open, 1, "OPEN", 4);
    hook_param(space, 32, "SPACE", 5);
    int64_t written = state_foreign_set(open, 1, "OPEN", 4, space, 32, gate, 20);
    if (written < 0)
        rollback("not granted", 11, written);
    accept("", 0, written);
}
