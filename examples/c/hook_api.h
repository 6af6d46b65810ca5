/* The calls that a hook may make, for clang with --target=wasm32.
 *
 * Lengths are bytes. A call that reads takes where to read and how many bytes; a call that writes takes where to write
 * and how much room there is, and answers how many bytes it wrote. A negative answer is a code (the table is in
 * docs/CALLS.md). Calls marked "or number" answer the value as a big-endian number where `to` and `room` are both 0. */
#ifndef HOOK_API_H
#define HOOK_API_H

#include <stdint.h>

#define CALL(name) __attribute__((import_module("env"), import_name(#name)))

/* `EXPORT int64_t hook(uint32_t argument)` is the hook, and `cbak` of the same type its callback. */
#define EXPORT __attribute__((visibility("default"), used))
/* Every other function: a hook may not call its own functions, so they are written into it. */
#define INLINE static inline __attribute__((always_inline))

/* The guard. Each loop begins with `_g(id, limit)`, two constants: the call with one id may pass `limit` times in a
 * run, and ends the run where it would pass once more. In these two forms it stays at the loop's head:
 *
 *     for (uint32_t i = 0; _g(1, 21), i < 20; i++)    asks 21 times: limit 21 for 20 turns
 *     do { _g(1, 20); ... } while (++i < 20);         limit 20 for 20 turns
 *
 * `noduplicate` and `convergent` keep the compiler from turning a loop round, unrolling it and splitting it in two. */
CALL(_g) __attribute__((noduplicate, convergent)) int32_t _g(uint32_t id, uint32_t limit);

/* End the run: the transaction may go on, or is refused. They come back (with -1) only where the text lies outside the
 * memory; the code behind them is never meant to run. Of the text 256 bytes are kept. */
CALL(accept) __attribute__((noreturn)) int64_t accept(const void *text, uint32_t length, int64_t code);
CALL(rollback) __attribute__((noreturn)) int64_t rollback(const void *text, uint32_t length, int64_t code);

/* Hashes, objects, decimals. */
CALL(util_sha512h) int64_t util_sha512h(void *to, uint32_t room, const void *from, uint32_t length);
CALL(util_keylet)
int64_t util_keylet(void *to, uint32_t room, uint32_t kind, const void *account, uint32_t account_length,
                    const void *key, uint32_t key_length, const void *space, uint32_t space_length);
CALL(sto_subfield) int64_t sto_subfield(const void *object, uint32_t length, uint32_t field);
CALL(sto_subarray) int64_t sto_subarray(const void *array, uint32_t length, uint32_t index);
CALL(sto_emplace)
int64_t sto_emplace(void *to, uint32_t room, const void *object, uint32_t length, const void *put, uint32_t put_length,
                    uint32_t field);
CALL(sto_erase) int64_t sto_erase(void *to, uint32_t room, const void *object, uint32_t length, uint32_t field);
CALL(sto_validate) int64_t sto_validate(const void *object, uint32_t length);
CALL(float_one) int64_t float_one(void);
CALL(float_set) int64_t float_set(int32_t exponent, int64_t mantissa);
CALL(float_multiply) int64_t float_multiply(int64_t x, int64_t y);
CALL(float_mulratio) int64_t float_mulratio(int64_t x, uint32_t up, uint32_t numerator, uint32_t denominator);
CALL(float_divide) int64_t float_divide(int64_t x, int64_t y);
CALL(float_invert) int64_t float_invert(int64_t x);
CALL(float_sum) int64_t float_sum(int64_t x, int64_t y);
CALL(float_negate) int64_t float_negate(int64_t x);
CALL(float_compare) int64_t float_compare(int64_t x, int64_t y, uint32_t mode); /* 1 equal, 2 less, 4 greater */
CALL(float_mantissa) int64_t float_mantissa(int64_t x);
CALL(float_sign) int64_t float_sign(int64_t x);
CALL(float_int) int64_t float_int(int64_t x, uint32_t places, uint32_t absolute);
CALL(float_sto)
int64_t float_sto(void *to, uint32_t room, const void *currency, uint32_t currency_length, const void *issuer,
                  uint32_t issuer_length, int64_t x, uint32_t field);
CALL(float_sto_set) int64_t float_sto_set(const void *amount, uint32_t length);
CALL(trace) int64_t trace(const void *text, uint32_t length, const void *data, uint32_t data_length, uint32_t hex);
CALL(trace_num) int64_t trace_num(const void *text, uint32_t length, int64_t number);
CALL(trace_float) int64_t trace_float(const void *text, uint32_t length, int64_t x);

/* The ledger and the hook. */
CALL(fee_base) int64_t fee_base(void);
CALL(ledger_seq) int64_t ledger_seq(void);
CALL(ledger_last_time) int64_t ledger_last_time(void);
CALL(ledger_last_hash) int64_t ledger_last_hash(void *to, uint32_t room);
CALL(ledger_nonce) int64_t ledger_nonce(void *to, uint32_t room);
CALL(hook_account) int64_t hook_account(void *to, uint32_t room);
CALL(hook_hash) int64_t hook_hash(void *to, uint32_t room, uint32_t position); /* 0xffffffff: of this hook */
CALL(hook_pos) int64_t hook_pos(void);
CALL(hook_param) int64_t hook_param(void *to, uint32_t room, const void *name, uint32_t length); /* or number */
CALL(hook_param_set)
int64_t hook_param_set(const void *value, uint32_t length, const void *name, uint32_t name_length, const void *hash,
                       uint32_t hash_length);
CALL(hook_skip) int64_t hook_skip(const void *hash, uint32_t length, uint32_t flags);

/* The transaction before which the hook runs; in a callback, the settled emission. */
CALL(otxn_type) int64_t otxn_type(void);
CALL(otxn_id) int64_t otxn_id(void *to, uint32_t room, uint32_t flags);
CALL(otxn_field) int64_t otxn_field(void *to, uint32_t room, uint32_t field); /* or number */
CALL(otxn_slot) int64_t otxn_slot(uint32_t slot);
CALL(otxn_param) int64_t otxn_param(void *to, uint32_t room, const void *name, uint32_t length); /* or number */
CALL(otxn_burden) int64_t otxn_burden(void);
CALL(otxn_generation) int64_t otxn_generation(void);

/* Slots 1 to 255 hold objects and their parts; 0 for a new one takes the lowest free one. */
CALL(slot) int64_t slot(void *to, uint32_t room, uint32_t slot); /* or number */
CALL(slot_set) int64_t slot_set(const void *name, uint32_t length, uint32_t slot);
CALL(slot_clear) int64_t slot_clear(uint32_t slot);
CALL(slot_count) int64_t slot_count(uint32_t slot);
CALL(slot_size) int64_t slot_size(uint32_t slot);
CALL(slot_subfield) int64_t slot_subfield(uint32_t slot, uint32_t field, uint32_t new_slot);
CALL(slot_subarray) int64_t slot_subarray(uint32_t slot, uint32_t index, uint32_t new_slot);
CALL(slot_type) int64_t slot_type(uint32_t slot, uint32_t flags);
CALL(slot_float) int64_t slot_float(uint32_t slot);

/* State: keys of 1 to 32 bytes, data of up to 256 bytes; no bytes remove an entry. */
CALL(state) int64_t state(void *to, uint32_t room, const void *key, uint32_t length); /* or number */
CALL(state_set) int64_t state_set(const void *data, uint32_t length, const void *key, uint32_t key_length);
CALL(state_foreign)
int64_t state_foreign(void *to, uint32_t room, const void *key, uint32_t length, const void *space,
                      uint32_t space_length, const void *account, uint32_t account_length); /* or number */
CALL(state_foreign_set)
int64_t state_foreign_set(const void *data, uint32_t length, const void *key, uint32_t key_length, const void *space,
                          uint32_t space_length, const void *account, uint32_t account_length);

/* Emissions. */
CALL(etxn_reserve) int64_t etxn_reserve(uint32_t count);
CALL(etxn_burden) int64_t etxn_burden(void);
CALL(etxn_generation) int64_t etxn_generation(void);
CALL(etxn_nonce) int64_t etxn_nonce(void *to, uint32_t room);
CALL(etxn_details) int64_t etxn_details(void *to, uint32_t room);
CALL(etxn_fee_base) int64_t etxn_fee_base(const void *blob, uint32_t length);
CALL(emit) int64_t emit(void *to, uint32_t room, const void *blob, uint32_t length);

/* Numbers of fields: 65,536 times the kind, and the code. */
#define FIELD(kind, code) ((uint32_t)(kind) << 16 | (code))
#define FIELD_SEQUENCE FIELD(2, 4)
#define FIELD_AMOUNT FIELD(6, 1)
#define FIELD_BALANCE FIELD(6, 2)
#define FIELD_FEE FIELD(6, 8)
#define FIELD_ACCOUNT FIELD(8, 1)
#define FIELD_DESTINATION FIELD(8, 3)

#define TYPE_PAYMENT 0
#define TYPE_INVOKE 99

/* A native amount is eight bytes: the second highest bit set, and the drops below it. As a number it is above 0; an
 * issued amount has 48 bytes, and as a number it is -3. */
#define NATIVE ((int64_t)1 << 62)

/* Whether two accounts are the same: no loop, so no guard. */
INLINE int same_account(const void *left, const void *right)
{
    const uint32_t *a = left, *b = right;
    return ((a[0] ^ b[0]) | (a[1] ^ b[1]) | (a[2] ^ b[2]) | (a[3] ^ b[3]) | (a[4] ^ b[4])) == 0;
}

/* Writes a number in eight bytes, the highest first. */
INLINE void put_number(void *to, uint64_t number)
{
    uint8_t *bytes = to;
    bytes[0] = (uint8_t)(number >> 56);
    bytes[1] = (uint8_t)(number >> 48);
    bytes[2] = (uint8_t)(number >> 40);
    bytes[3] = (uint8_t)(number >> 32);
    bytes[4] = (uint8_t)(number >> 24);
    bytes[5] = (uint8_t)(number >> 16);
    bytes[6] = (uint8_t)(number >> 8);
    bytes[7] = (uint8_t)number;
}

/* The same in four bytes. */
INLINE void put_short(void *to, uint32_t number)
{
    uint8_t *bytes = to;
    bytes[0] = (uint8_t)(number >> 24);
    bytes[1] = (uint8_t)(number >> 16);
    bytes[2] = (uint8_t)(number >> 8);
    bytes[3] = (uint8_t)number;
}

#endif
