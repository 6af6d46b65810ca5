/* refused elements
 * Pointers to functions need a table with elements. */
#include "hook_api.h"

static int64_t one(void)
{
    return 1;
}

static int64_t two(void)
{
    return 2;
}

static int64_t (*const each[])(void) = {one, two};

EXPORT int64_t hook(uint32_t argument)
{
    accept("", 0, each[argument & 1]());
}
