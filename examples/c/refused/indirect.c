/* refused indirect 0 4
 * A call of a pointer, which this time comes from nowhere. */
#include "hook_api.h"

static int64_t (*volatile pointer)(void);

EXPORT int64_t hook(uint32_t argument)
{
    accept("", 0, pointer());
}
