/* refused memory
 * 2,000,000 bytes don't fit into 16 pages of 65,536. */
#include "hook_api.h"

static uint8_t room[2000000];

EXPORT int64_t hook(uint32_t argument)
{
    otxn_id(room + argument, 32, 0);
    accept(room, 32, 0);
}
