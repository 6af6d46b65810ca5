/* refused bound hook 233529
 * Turns within turns: 101 times 101 passes of the inner loop. */
#include "hook_api.h"

EXPORT int64_t hook(uint32_t argument)
{
    int64_t sum = 0;
    for (uint32_t i = 0; _g(1, 101), i < 100; i++)
        for (uint32_t j = 0; _g(2, 100 * 101), j < 100; j++)
            sum += ledger_seq();
    accept("", 0, sum);
}
