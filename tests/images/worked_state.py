"""The worked example of a state text, and its device. worked_state.txt lists the fields of the
text. worked_sequences.txt lists the fields of three sequence objects, which follow the layer.
"""

import copy
import functools
import pathlib

from tpmsim.model.hash_states import HmacState
from tpmsim.model.player import Player
from tpmsim.model.sequences import EventSequence, HashSequence, HmacSequence, SequenceObject
from tpmsim.model.state_text import Layer, state_text
from tpmsim.standard import number, SHA1, SHA256

# At the end, Clock is three milliseconds ahead of Time. One authorization has failed, and
# lockoutAuth is disabled. The first of the three sessions was flushed, and the last is a bound
# policy session.
LINES = """
entropy 000102030405060708090a0b0c0d0e0f101112131415161718191a1b1c1d1e1f202122232425262728292a2b2c2d2e2f303132333435363738393a3b3c3d3e3f
do Startup 0
wait 3
do HierarchyChangeAuth OWNER pw:- 6f776e6572
do DictionaryAttackParameters LOCKOUT pw:- 5 1001 1002
power
do Startup 0
do NV_DefineSpace OWNER pw:6f776e6572 696e646578 01000001000b0004001400000008
do NV_Increment 01000001 01000001 pw:696e646578
do PCR_Extend 00000003 pw:- sha256:abababababababababababababababababababababababababababababababab
do StartAuthSession NULL NULL 000102030405060708090a0b0c0d0e0f - 0 null sha256
do StartAuthSession NULL NULL 202122232425262728292a2b2c2d2e2f3031 - 0 xor-sha1 sha1
do StartAuthSession NULL OWNER 404142434445464748494a4b4c4d4e4f - 1 aes sha256
do FlushContext 0x2000000
do PolicyPCR 03000002 - sha256:3
do PCR_Extend 00000004 pw:- sha1:cdcdcdcdcdcdcdcdcdcdcdcdcdcdcdcdcdcdcdcd
do PolicyCommandCode 03000002 0x14e
do PolicyLocality 03000002 0x3
do PolicyNvWritten 03000002 1
do PolicyAuthValue 03000002
do CreatePrimary NULL pw:- 000370696e0006736563726574 0008000b00000452000000100000 - -
wait 1000
do NV_Read 01000001 01000001 pw:- 8 0
wait 70000
do DictionaryAttackLockReset LOCKOUT pw:78
wait 5
do GetRandom 1
"""

FOLDER = pathlib.Path(__file__).parent
FIELDS = FOLDER / "worked_state.txt"
SEQUENCES = FOLDER / "worked_sequences.txt"

# The message "abc" with its padding, which is one block (FIPS 180-4). The hash state after this
# block is the digest of "abc".
ABC = b"abc\x80" + bytes(52) + number(24, 8)

# A key for an HMAC. With this key, the first block of the HMAC's inner hash is ABC.
KEY = bytes(it ^ 0x36 for it in ABC)


@functools.cache
def played():
    player = Player()
    for line in LINES.encode().splitlines():
        player.play(line)
    return player.device


def device():
    """Returns a new copy of the device, which the caller may change."""
    return copy.deepcopy(played())


def layer():
    """Returns a completing layer with the saved context of one session."""
    return Layer(0x1122334455667788, 3, [0, 2] + [0] * 14)


def sequences():
    """Returns three sequence objects: a hash sequence, an event sequence and an HMAC sequence."""
    return [
        SequenceObject.of(b"pin", HashSequence.of(SHA1).after(b"\xff\x54")),
        SequenceObject.of(b"", EventSequence().after(ABC + b"xy")),
        SequenceObject.of(b"", HmacSequence(HmacState.of_key(SHA256, KEY))),
    ]


def layer_with_sequences():
    found = layer()
    found.sequences = sequences()
    return found


def text():
    return state_text(device(), layer())


def written(fields=FIELDS):
    """Returns the text in a file. Each line contains some of its bytes in hex, up to the first
    double space. Comment lines are skipped.
    """
    lines = fields.read_text("ascii").splitlines()
    return bytes.fromhex("".join(it.partition("  ")[0] for it in lines if it[:1] != "#"))
