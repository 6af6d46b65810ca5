/* refused grow 0 3
 * The memory has the size that it begins with. */
#include "hook_api.h"

EXPORT int64_t hook(uint32_t argument)
{
    accept("", 0, (int64_t)__builtin_wasm_memory_grow(0, 1));
}
