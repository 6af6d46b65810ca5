/* refused export
 * hook is a function from i32 to i64. */
#include "hook_api.h"

EXPORT int32_t hook(void)
{
    accept("", 0, 0);
}
