#!/usr/bin/env python3
"""Makes lines for the program `hooks` from a compiled hook and from the words on the command line.

  hook_line.py check FILE.wasm                        a whole input for `check` and `run`: `hook <hex>`, `end`
  hook_line.py install FILE.wasm --account A ...      a `tx` line: a SetHook that creates the hook
  hook_line.py update --account A ...                 a SetHook that changes what is given of an installed hook
  hook_line.py remove --account A ...                 a SetHook that removes it
  hook_line.py pay --account A --to B --drops N ...   a Payment
  hook_line.py invoke --account A [--to B] ...        an Invoke

Accounts, namespaces and hashes are hex: 40, 64 and 64 digits. Standard library only; `hook_line.py WORD --help` lists
the options of each word. The bytes are those of the XRPL's binary format: each field is a header (its kind and its
code), for blobs and accounts a length, and the value; the fields of an object stand in rising order of kind, then code.
"""
import argparse
import sys

# Transaction types.
PAYMENT, SET_HOOK, INVOKE = 0, 22, 99
TYPES = {"payment": PAYMENT, "accountset": 3, "sethook": SET_HOOK, "invoke": INVOKE}

# Fields: kind and code.
TRANSACTION_TYPE, API_VERSION = (1, 2), (1, 20)
FLAGS, SEQUENCE = (2, 2), (2, 4)
HOOK_ON, HOOK_HASH, NAMESPACE = (5, 20), (5, 31), (5, 32)
AMOUNT, FEE = (6, 1), (6, 8)
SIGNING_KEY, CREATE_CODE, PARAMETER_NAME, PARAMETER_VALUE = (7, 3), (7, 11), (7, 24), (7, 25)
ACCOUNT, DESTINATION, AUTHORIZE = (8, 1), (8, 3), (8, 5)
HOOK, PARAMETER, GRANT = (14, 14), (14, 23), (14, 24)
HOOKS, PARAMETERS, GRANTS = (15, 11), (15, 19), (15, 20)
BLOBS, OBJECTS, ARRAYS = (7, 8), 14, 15  # blobs and accounts have a length; objects and arrays an end mark
OVERRIDE = 1  # the flag of a Hook by which it may replace one


def header(field):
    """The bytes that begin a field."""
    kind, code = field
    if kind < 16 and code < 16:
        return bytes([kind * 16 + code])
    if kind < 16:
        return bytes([kind * 16, code])
    return bytes([code, kind]) if code < 16 else bytes([0, kind, code])


def length(count):
    """The length of a blob: one byte up to 192, two up to 12,480, three up to 918,744."""
    if count <= 192:
        return bytes([count])
    if count <= 12480:
        return bytes([193 + (count - 193) // 256, (count - 193) % 256])
    count -= 12481
    return bytes([241 + count // 65536, count // 256 % 256, count % 256])


def spell(field, value):
    """The bytes of one field; of an object and an array the value is what stands in it."""
    if field[0] in BLOBS:
        value = length(len(value)) + value
    if field[0] == OBJECTS:
        value += b"\xe1"
    if field[0] == ARRAYS:
        value += b"\xf1"
    return header(field) + value


def fields(pairs):
    """The contents of an object: its fields in rising order. A value of None is left out."""
    return b"".join(spell(*pair) for pair in sorted(pairs.items()) if pair[1] is not None)


def number(value, size):
    return value.to_bytes(size, "big")


def native(drops):
    """An amount in drops: the highest bit clear, the next one set."""
    return number(1 << 62 | drops, 8)


def fires_on(names):
    """A HookOn: a hook fires on a type where its bit is 0, on SetHook (22) where that bit is 1."""
    mask = (1 << 256) - 1
    for name in names.split(","):
        mask ^= 1 << TYPES[name]
    return number(mask ^ 1 << SET_HOOK, 32)


def parameters(pairs):
    """HookParameters: what stands in the array, or None."""
    each = [spell(PARAMETER, fields({PARAMETER_NAME: name, PARAMETER_VALUE: value})) for name, value in pairs or []]
    return b"".join(each) if each else None


def grants(pairs):
    """HookGrants: each a hash, and the one account to which the grant is limited, or None for any."""
    return b"".join(spell(GRANT, fields({HOOK_HASH: hook, AUTHORIZE: account})) for hook, account in pairs)


def transaction(given, kind, fee, more):
    """A `tx` line."""
    pairs = {
        TRANSACTION_TYPE: number(kind, 2),
        SEQUENCE: number(given.sequence, 4),
        FEE: native(given.fee if given.fee is not None else fee),
        SIGNING_KEY: b"",
        ACCOUNT: given.account,
        **more,
    }
    return f"tx good {fields(pairs).hex()}"


def set_hook(given, fee, item):
    """A SetHook whose item at the position given is this one; those before it change nothing."""
    items = [spell(HOOK, b"")] * given.position + [spell(HOOK, fields(item))]
    return transaction(given, SET_HOOK, fee, {HOOKS: b"".join(items)})


def check(given):
    return f"hook {read(given.file).hex()}\nend"


def install(given):
    code = read(given.file)
    item = {
        CREATE_CODE: code,
        API_VERSION: number(given.api_version, 2),
        HOOK_ON: fires_on(given.on),
        NAMESPACE: given.namespace,
        PARAMETERS: parameters(given.parameter),
        GRANTS: grants(given.grant) if given.grant else None,
        FLAGS: number(OVERRIDE, 4) if given.replace else None,
    }
    # What it costs where no hook of the account fires on SetHook: 10 drops, and 10 for each byte of the code.
    return set_hook(given, 10 + 10 * len(code), item)


def update(given):
    grants_given = b"" if given.no_grants else grants(given.grant) if given.grant else None
    item = {
        HOOK_ON: fires_on(given.on) if given.on else None,
        NAMESPACE: given.namespace,
        PARAMETERS: parameters(given.parameter),
        GRANTS: grants_given,
    }
    return set_hook(given, 10, item)


def remove(given):
    return set_hook(given, 10, {CREATE_CODE: b"", FLAGS: number(OVERRIDE, 4)})


def pay(given):
    return transaction(given, PAYMENT, 10, {DESTINATION: given.to, AMOUNT: native(given.drops)})


def invoke(given):
    return transaction(given, INVOKE, 10, {DESTINATION: given.to, PARAMETERS: parameters(given.parameter)})


def read(file):
    with open(file, "rb") as it:
        return it.read()


def hex_of(size):
    """A reader of so many bytes in hex."""

    def hex_value(word):
        value = bytes.fromhex(word)
        if len(value) != size:
            raise ValueError(word)
        return value

    hex_value.__name__ = f"{2 * size} hex digits"
    return hex_value


def parameter(word):
    """NAME=HEX, or NAME:N for a number in eight bytes."""
    name, sign, value = word.partition("=") if "=" in word else word.partition(":")
    return name.encode(), bytes.fromhex(value) if sign == "=" else number(int(value), 8)


def grant(word):
    """HASH, or HASH:ACCOUNT."""
    hook, _, account = word.partition(":")
    return hex_of(32)(hook), hex_of(20)(account) if account else None


def words():
    """The options of each word."""
    reader = argparse.ArgumentParser(description=__doc__, formatter_class=argparse.RawDescriptionHelpFormatter)
    verbs = reader.add_subparsers(required=True, metavar="WORD")
    for verb in (check, install, update, remove, pay, invoke):
        it = verbs.add_parser(verb.__name__)
        it.set_defaults(verb=verb)
        if verb in (check, install):
            it.add_argument("file")
        if verb is check:
            continue
        it.add_argument("--account", type=hex_of(20), required=True, help="the sender")
        it.add_argument("--sequence", type=int, required=True, help="the sender's sequence number")
        it.add_argument("--fee", type=int, help="drops; without it what is needed where no hook fires")
        if verb in (pay, invoke):
            it.add_argument("--to", type=hex_of(20), required=verb is pay, help="the other account")
        if verb is pay:
            it.add_argument("--drops", type=int, required=True)
        if verb in (install, update, invoke):
            it.add_argument("--parameter", type=parameter, action="append", help=parameter.__doc__)
        if verb in (install, update, remove):
            it.add_argument("--position", type=int, default=0, choices=range(10), help="0 (the first) to 9")
        if verb in (install, update):
            default = "payment" if verb is install else None
            it.add_argument("--on", default=default, help="types on which it fires, as payment,invoke")
            space = bytes(32) if verb is install else None
            it.add_argument("--namespace", type=hex_of(32), default=space, help="of its state; zeros at first")
            it.add_argument("--grant", type=grant, action="append", help=grant.__doc__ + " That hook may write the state")
        if verb is install:
            it.add_argument("--replace", action="store_true", help="a hook that stands there is replaced")
            it.add_argument("--api-version", type=int, default=0, choices=(0, 1), help="of the machine that runs it")
        if verb is update:
            it.add_argument("--no-grants", action="store_true", help="all grants are withdrawn")
    return reader


if __name__ == "__main__":
    given = words().parse_args()
    print(given.verb(given))
