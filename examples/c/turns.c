/* Hashes the transaction's id as many times as its parameter TURNS says (eight bytes), at least once. Before that it
 * keeps the number in the state LAST. Its guard lets four turns pass: a fifth ends the run, and nothing of it is kept.
 * It fires on Invoke. */
#include "hook_api.h"

static uint8_t number[8], hash[32];

EXPORT int64_t hook(uint32_t argument)
{
    int64_t turns = otxn_param(0, 0, "TURNS", 5);
    put_number(number, (uint64_t)turns);
    state_set(number, 8, "LAST", 4);
    otxn_id(hash, 32, 0);
    int64_t turn = 0;
    do {
        _g(1, 4);
        util_sha512h(hash, 32, hash, 32);
    } while (++turn < turns);
    accept(hash, 32, turn);
}
