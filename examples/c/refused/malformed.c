/* refused malformed
 * flags: -msign-ext
 * An instruction that WebAssembly 1.0 doesn't have: newer clangs use some where -mcpu=mvp is missing. */
#include "hook_api.h"

EXPORT int64_t hook(uint32_t argument)
{
    accept("", 0, (int8_t)argument);
}
