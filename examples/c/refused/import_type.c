/* refused import 0
 * A call with other parameters than its own. */
#include <stdint.h>

__attribute__((import_module("env"), import_name("accept"))) int64_t accept(int64_t code);

__attribute__((visibility("default"), used)) int64_t hook(uint32_t argument)
{
    return accept(0);
}
