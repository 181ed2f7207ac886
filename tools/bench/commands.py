"""Prints a script for one of the measurements in this folder: preparing commands, and then one command
COUNT times.

    tools/bench/commands.py plain NAME COUNT            without a session
    tools/bench/commands.py object NAME COUNT           a command on objects
    tools/bench/commands.py session NAME BINDING COUNT  reset or extend of a PCR, or write or read of an
                                                  index with its own value, in an HMAC session that
                                                  is bound to BINDING: none, owner or index
    tools/bench/commands.py nv NAME SIZE INDICES COUNT  read, write or increment of the first of INDICES
                                                  indices, each of SIZE bytes

tools/python.sh runs it. Commands without a session use a password. If a command makes an object or
a session, the script flushes it. In scripts with sessions, all commands get the same random bytes,
so that the device always draws the same nonce, and accepts the same prepared buffer each time.
"""

import sys

from tpmsim.caller import area, BY_VALUE, hmac_key, sealed, storage_key, Use
from tpmsim.device.base import line_in_bytes
from tpmsim.standard import RH_NULL, RH_OWNER, SHA256
from tests.common.expected import buffer_of
from tests.common.script import Script
from tests.common.script_caller import FIRST, ScriptCaller

NONCE, DIGEST, DATA = "00" * 16, "11" * 32, "22" * 64
SECRET = bytes(range(32))
PCR = 0x10
BINDINGS = {"none": RH_NULL, "owner": RH_OWNER, "index": FIRST}
STARTUP = "do Startup 0"

# The attributes OWNERWRITE and OWNERREAD, for an ordinary index and for a counter.
ORDINARY, COUNTER = 0x0002_0002, 0x0002_0012

PREPARED = [
    STARTUP,
    "do NV_DefineSpace OWNER pw:- - 01000000000b0002000200000040",
    f"do NV_Write OWNER 01000000 pw:- {DATA} 0",
    f"do StartAuthSession NULL NULL {NONCE} - 1 null sha256",
]

PLAIN = {
    "GetRandom": ["GetRandom 32"],
    "PCR_Read": ["PCR_Read sha256:0,1,2,3,4,5,6,7"],
    "PCR_Extend": [f"PCR_Extend 00000010 pw:- sha256:{DIGEST}"],
    "NV_Read": ["NV_Read OWNER 01000000 pw:- 64 0"],
    "NV_Write": [f"NV_Write OWNER 01000000 pw:- {DATA} 0"],
    "StartAuthSession": [
        f"StartAuthSession NULL NULL {NONCE} - 0 null sha256",
        "FlushContext 0x02000001",
    ],
    "PolicyPCR": ["PolicyPCR 03000000 - sha256:10"],
}


def in_hex(lines):
    """Returns script lines with their commands in hex."""
    buffers = map(buffer_of, lines)
    return [it if data is None else line_in_bytes(data) for it, data in zip(lines, buffers)]


def plain(name):
    return in_hex(PREPARED), in_hex([f"do {it}" for it in PLAIN[name]])


def nv_commands(name, size, indices):
    """Returns the setup lines and the line to measure, in hex. Before a read, the setup writes the
    index.
    """

    def define(index, attributes, size):
        return f"do NV_DefineSpace OWNER pw:- - {index:08x}000b{attributes:08x}0000{size:04x}"

    by_owner = "OWNER 01000000 pw:-"
    commands = {
        "read": f"do NV_Read {by_owner} {size} 0",
        "write": f"do NV_Write {by_owner} {'00' * int(size) or '-'} 0",
        "increment": f"do NV_Increment {by_owner}",
    }
    first = define(0x0100_0000, COUNTER if name == "increment" else ORDINARY, int(size))
    others = [define(0x0100_0000 + it, ORDINARY, 64) for it in range(1, int(indices))]
    written = commands["write" if name == "read" else name]
    return in_hex([STARTUP, first, *others, written]), in_hex([commands[name]])


def begun():
    """Returns a caller for a new script that begins with TPM2_Startup."""
    tpm = ScriptCaller(Script("bench", ""))
    tpm.script.startup()
    return tpm


def lines_of(tpm):
    return [it for it in tpm.script.lines if it.startswith(("cmd", "do ", "entropy"))]


def by_session(name, binding):
    tpm = begun()
    tpm.script.entropy(b"\xbb")
    tpm.script.fresh = lambda: None
    if name != "reset":
        tpm.define("An index", area(FIRST, BY_VALUE, size=64), auth=b"a")
        tpm.does("Its first write", tpm.writing(FIRST, bytes(64)))
    use = Use(tpm.start("A session", BINDINGS[binding]))
    buffer = {
        "reset": lambda: tpm.reset(use),
        "write": lambda: tpm.writing(FIRST, bytes(64), use),
        "read": lambda: tpm.reading(FIRST, 64, use),
        "extend": lambda: tpm.command("PCR_Extend", PCR, uses=[use], digests=[(SHA256, bytes(32))]),
    }[name]().buffer()
    for _ in range(2):
        tpm.script.command("SUCCESS", buffer)
    lines = lines_of(tpm) if name == "reset" else in_hex(lines_of(tpm))
    return lines[:-2], lines[-1:]


def of_object(name):
    tpm = begun()
    parent = tpm.create_primary("A storage key", RH_OWNER, storage_key())
    made = tpm.create("Sealed data", parent, sealed(), data=SECRET)
    handle = tpm.load("Loaded", parent, made)
    key = tpm.create_primary("A key of HMACs", RH_OWNER, hmac_key(), data=SECRET)
    flush = tpm.flush(key + 1)
    prepared = {
        "CreatePrimary": lambda: [tpm.primary(RH_OWNER, storage_key()), flush],
        "Create": lambda: [tpm.child(parent, sealed(), data=SECRET)],
        "Load": lambda: [tpm.loading(parent, made), flush],
        "Unseal": lambda: [tpm.unsealing(handle)],
        "HMAC": lambda: [tpm.hmac(key, bytes(1024), SHA256)],
    }[name]()
    return lines_of(tpm), [line_in_bytes(it.buffer()) for it in prepared]


KINDS = {"plain": plain, "nv": nv_commands, "session": by_session, "object": of_object}

kind, *words, count = sys.argv[1:]
before, repeated = KINDS[kind](*words)
print("\n".join(before + repeated * int(count)))
