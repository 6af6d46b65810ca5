/* refused import 0
 * A call that there isn't. */
#include "hook_api.h"

CALL(util_accid) int64_t util_accid(void *to, uint32_t room, const void *address, uint32_t length);

static uint8_t account[20];

EXPORT int64_t hook(uint32_t argument)
{
    util_accid(account, 20, "r", 1);
    accept(account, 20, 0);
}
