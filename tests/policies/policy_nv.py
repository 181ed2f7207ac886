"""Makes policy_nv.tpm. TPM2_PolicyNV: the policy holds while a comparison of an index's content
with a value is true. Its parameters are operandB, offset and operation; the index is on the left of
the comparison.
"""

import hashlib
from operator import eq, ge, gt, le, lt, ne

from tests.common.policy_teller import PolicyTeller
from tests.common.vocabulary import area, bits, BY_OWNER, BY_PLATFORM, BY_POLICY, BY_VALUE, CC
from tests.common.vocabulary import counter, extended, FIFTH, FIRST, flipped, FOURTH, frames
from tests.common.vocabulary import is_trial, number, NvAttribute, policy, RH_OWNER, RH_PLATFORM
from tests.common.vocabulary import SECOND, SHA1, SHA256, sized, THIRD, Use, zeros

# Descriptions of the operations, by number. COMPARE has a function for each operation that compares
# instead of testing bits.
NAMES = (
    *("equal", "not equal", "greater, signed", "greater", "less, signed", "less"),
    *("greater or equal, signed", "greater or equal", "less or equal, signed", "less or equal"),
    *("all bits of the operand are set", "all bits of the operand are clear"),
)
EQ, NEQ, SIGNED_GT, GT, SIGNED_LT, LT, SIGNED_GE, GE, SIGNED_LE, LE, BITSET, BITCLEAR = range(12)
COMPARE = eq, ne, gt, gt, lt, lt, ge, ge, le, le
SIGNED = SIGNED_GT, SIGNED_LT, SIGNED_GE, SIGNED_LE

tpm = PolicyTeller(__name__, __doc__)


def after(session, old, index, operand, offset, operation):
    """Returns the policy digest after TPM2_PolicyNV, as the standard defines it."""
    digest = hashlib.sha1 if session.algorithm == SHA1 else hashlib.sha256
    compared = digest(operand + number(offset, 2) + number(operation, 2)).digest()
    return digest(old + number(CC.PolicyNV, 4) + compared + tpm.names[index]).digest()


def compares(words, session, operation, *operands, offset=0, index=FIRST, by=RH_OWNER):
    for operand in operands:
        told = tpm.comparing(session, index, operand, offset=offset, operation=operation, by=by)
        tpm.comes_to(words if operand is operands[0] else "", told)


def fails(words, session, operation, *operands, offset=0, index=FIRST):
    choices = dict(offset=offset, operation=operation, by=RH_OWNER)
    tpm.fails(words, *(tpm.comparing(session, index, it, **choices) for it in operands))


def adds(what, session, operand, offset=0, operation=EQ, index=FIRST, by=RH_OWNER):
    """Makes an assertion that must be accepted, and checks the digest after it."""
    wanted = after(session, tpm.digest_of(session), index, operand, offset, operation)
    compares(what, session, operation, operand, offset=offset, index=index, by=by)
    tpm.digest_is("The digest of the session", session, wanted)


# Contents of an index of four bytes, each with operands that are compared with it.
OPERANDS = {
    0x0000_0005: (5, 4, 6, 0, 0x7FFF_FFFF, 0x8000_0000, 0xFFFF_FFFF),
    0xFFFF_FFFE: (0xFFFF_FFFE, 0xFFFF_FFFD, 0xFFFF_FFFF, 0x8000_0000, 0x7FFF_FFFF, 0, 1),
}


def holds(operation, held, operand):
    if operation in SIGNED:
        held, operand = (it - (it >> 31 << 32) for it in (held, operand))
    return COMPARE[operation](held, operand)


def both(session, operation, true, false):
    """Sends operands for which a comparison is true, and operands for which it is false."""
    case = f"Operation {operation:X}, {NAMES[operation]}: it holds of these operands"
    compares(case, session, operation, *true, index=SECOND)
    if false:
        fails(
            "Operands for which the comparison is false: POLICY",
            session,
            operation,
            *false,
            index=SECOND,
        )


def refused(words, by, offset=9):
    tpm.fails(words, tpm.comparing(session, THIRD, b"x", offset=offset, by=by))


tpm.define("An index that holds eight bytes", area(FIRST, BY_OWNER | BY_VALUE), auth=b"")
tpm("The index is written").writing(FIRST, b"8 bytes.")

for session in tpm.each_session():
    for what, *comparison in (
        ("Equal to eight bytes at 0", b"8 bytes.", 0, EQ),
        ("Equal to a byte at 7", b".", 7, EQ),
        ("The same comparison, once more", b".", 7, EQ),
        ("Not equal to zeros", bytes(8), 0, NEQ),
        ("Greater or equal, at 2", b"byte", 2, GE),
        ("No bytes, after the last", b"", 8, EQ),
    ):
        adds(what, session, *comparison)
    if is_trial(session):
        adds("A comparison that is false", session, b"9")
    else:
        fails("A comparison that is false: POLICY", session, EQ, b"9")
        tpm.digest_is("The digest of the session", session)

tpm.chapter("The digest has the Name of the index as it is then.")
trial = tpm.trial("A trial session")
tpm.define("An index that is not written", area(SECOND, BY_OWNER))
compares("A trial session asserts of it all the same", trial, EQ, bytes(8), index=SECOND)
before = after(trial, zeros(trial), SECOND, bytes(8), 0, EQ)
tpm.digest_is("The digest is of its Name of now", trial, before)
session = tpm.policy("A policy session")
fails("A policy session does not: NV_UNINITIALIZED", session, EQ, bytes(8), index=SECOND)
tpm("The index is written").writing(SECOND, bytes(8), by=RH_OWNER)
compares("Now the comparison is true", session, EQ, bytes(8), index=SECOND)
written = after(session, zeros(session), SECOND, bytes(8), 0, EQ)
assert written != before
tpm.digest_is("The digest is another than before", session, written)
tpm.restarts(trial)
compares("The same in the trial session", trial, EQ, bytes(8), index=SECOND)
tpm.digest_is("It is the same", trial, written)
for each in (trial, session):
    tpm("The session is flushed").flush(each)
tpm("The index is undefined").undefining(SECOND)

tpm.define("An index of four bytes", area(SECOND, BY_OWNER, size=4))

session = tpm.policy("A policy session")
for held, operands in OPERANDS.items():
    tpm.chapter(f"Comparisons with {held:08X}.")
    tpm("The index is written").writing(SECOND, number(held, 4), by=RH_OWNER)
    for operation in range(len(COMPARE)):
        true = [it for it in operands if holds(operation, held, it)]
        false = [it for it in operands if it not in true]
        both(session, operation, *([number(it, 4) for it in those] for those in (true, false)))

tpm.chapter("Bits of A5A5A5A5.")
tpm("The index is written").writing(SECOND, b"\xa5" * 4, by=RH_OWNER)
zero, one, two, all_bits = bytes(4), number(1, 4), number(2, 4), b"\xff" * 4
true = [b"\xa5" * 4, b"\x80\0\0\0", one, b"\x21" * 4, zero]
false = [all_bits, two, b"\xa5\xa5\xa5\xa7", b"\xe5\xa5\xa5\xa5", b"\x5a" * 4]
both(session, BITSET, true, false)
true = [b"\x5a" * 4, two, b"\x40\0\0\0", zero]
false = [all_bits, one, b"\xa5" * 4, b"\x5b\x5a\x5a\x5a", b"\x80\0\0\0"]
both(session, BITCLEAR, true, false)

tpm.chapter("No bytes are equal to no bytes, at every offset.")
for operation in range(12):
    what = f"Operation {operation:X}, {NAMES[operation]}"
    if operation in (NEQ, SIGNED_GT, GT, SIGNED_LT, LT):
        fails(f"{what}: POLICY", session, operation, b"", index=SECOND)
    else:
        compares(what, session, operation, b"", index=SECOND)
        compares("At the end", session, operation, b"", offset=4, index=SECOND)
tpm("The session is flushed").flush(session)

tpm.chapter("Operands of other sizes, and at other offsets: the sign is that of their first bit.")
session = tpm.policy("A policy session")
data = bytes([0x80, 0x00, 0x7F, 0xFF]) + bytes(range(60))
tpm.define("An index of 64 bytes", area(THIRD, BY_OWNER, size=64))
tpm("The index is written").writing(THIRD, data, by=RH_OWNER)
for size, offset in ((1, 0), (2, 2), (3, 1), (32, 0), (32, 32), (31, 33), (1, 63)):
    piece, at = data[offset : offset + size], dict(offset=offset, index=THIRD)
    compares(f"{size} bytes at {offset}, equal", session, EQ, piece, **at)
    compares("Less or equal, signed", session, SIGNED_LE, piece, **at)
    fails("Another last bit: POLICY", session, EQ, flipped(piece), **at)
compares("80 is less than 7F, signed", session, SIGNED_LT, b"\x7f", index=THIRD)
fails("80 is not less than 7F, unsigned: POLICY", session, LT, b"\x7f", index=THIRD)
compares("8000 is less than 0000, signed", session, SIGNED_LT, b"\0\0", index=THIRD)
case = "007FFF is less than 008000, signed or not"
compares(case, session, SIGNED_LT, b"\0\x80\0", offset=1, index=THIRD)
compares("", session, LT, b"\0\x80\0", offset=1, index=THIRD)
fails("Past the end: NV_RANGE", session, EQ, b"\x3b\0", bytes(32), offset=63, index=THIRD)
fails("One byte, and none, after it: NV_RANGE", session, EQ, b"x", offset=64, index=THIRD)
fails(": NV_RANGE", session, EQ, b"", offset=65, index=THIRD)
fails("At FFFF: NV_RANGE", session, EQ, bytes(32), b"", offset=0xFFFF, index=THIRD)
tpm("The index is undefined").undefining(THIRD)
tpm("The session is flushed").flush(session)

tpm.chapter("Indices of each type.")
session = tpm.policy("A policy session")
for index, make, change, held in (
    (THIRD, counter, tpm.incrementing, number(1, 8)),
    (FOURTH, bits, lambda it, by: tpm.setting(it, 5, by=by), number(5, 8)),
    (
        *(FIFTH, extended, lambda it, by: tpm.extending(it, b"abc", by=by)),
        hashlib.sha256(bytes(32) + b"abc").digest(),
    ),
):
    tpm.define("TPM2_NV_DefineSpace", make(index, BY_OWNER))
    tpm.does("The index is changed", change(index, by=RH_OWNER))
    compares("TPM2_PolicyNV", session, EQ, held, index=index)
    tpm.does("The index is changed again", change(index, by=RH_OWNER))
    if make == bits:
        compares("It is the same", session, EQ, held, index=index)
    else:
        fails("The data are different: POLICY", session, EQ, held, index=index)
for index in (THIRD, FOURTH, FIFTH):
    tpm("The indices are undefined" if index == THIRD else "").undefining(index)
tpm("The session is flushed").flush(session)

tpm.chapter("Refusals. The index is not written, is locked, and only the platform may read it.")
session = tpm.policy("A policy session")
trial = tpm.trial("A trial session")
tpm.define("An index", area(THIRD, BY_VALUE | BY_PLATFORM | NvAttribute.READ_STCLEAR), auth=b"a")
tpm("TPM2_NV_ReadLock").read_locking(THIRD)

refused("By the owner: NV_AUTHORIZATION", RH_OWNER)
refused("By another index: NV_AUTHORIZATION", FIRST)
refused("By the index: NV_LOCKED", THIRD)
refused("By the platform: NV_LOCKED", RH_PLATFORM)
tpm.power_cycle()
session = tpm.policy("A policy session")
trial = tpm.trial("A trial session")
tpm.is_now("The index is not locked", THIRD, cleared=NvAttribute.READLOCKED)
refused("By the platform: NV_UNINITIALIZED", RH_PLATFORM)
tpm("The index is written").writing(THIRD, b"x")
refused("Past the end: NV_RANGE", THIRD)
refused("What does not hold: POLICY", THIRD, offset=1)
tpm.digest_is("The digest is zeros", session, zeros(session))
refused("A comparison that is true: SUCCESS", THIRD, offset=0)

tpm.chapter("In a trial session none of these matters.")
tpm("TPM2_NV_ReadLock").read_locking(THIRD)
for what, by, offset in (
    ("By the owner", RH_OWNER, 0),
    ("By another index", FIRST, 0),
    ("Locked", THIRD, 0),
    ("Past the end", THIRD, 9),
    ("At FFFF", THIRD, 0xFFFF),
    ("What does not hold", THIRD, 1),
):
    adds(what, trial, b"x", offset, index=THIRD, by=by)

tpm.chapter("But the authorization does, and so do handles and parameters.")
right, empty, text = tpm.comparing(trial, THIRD, b"x"), sized(b""), frames.policy_nv
tpm("A wrong password: AUTH_FAIL/s1").comparing(trial, THIRD, b"x", b"wrong")
tpm.define("An index that its value cannot read", area(FOURTH, BY_OWNER | BY_POLICY), auth=b"a")
tpm("By it: AUTH_UNAVAILABLE").comparing(trial, FOURTH, b"x")
tpm.fails("Without sessions: AUTH_MISSING", right.but(entries=[]))
for words, *handles in (
    ("authHandle of another kind: VALUE/h1", frames.RH_NULL, THIRD, trial.handle),
    ("authHandle that is not there: HANDLE/h1", SECOND + 90, THIRD, trial.handle),
    ("nvIndex of another kind: VALUE/h2", THIRD, RH_OWNER, trial.handle),
    ("nvIndex that is not there: HANDLE/h2", THIRD, SECOND + 90, trial.handle),
    ("policySession of another kind: VALUE/h3", THIRD, THIRD, 0x0200_0000),
    ("policySession that is not there: REFERENCE_H2", THIRD, THIRD, 0x0300_000F),
):
    tpm.fails(words, right.but(handles=handles))
for words, *texts in (
    ("operandB that is cut: INSUFFICIENT/p1", b"", b"\0", b"\0\1", b"\0\x20" + bytes(31)),
    ("A buffer of 33 bytes, whole or truncated: SIZE/p1", text(bytes(33)), b"\0\x21"),
    ("offset that is cut: INSUFFICIENT/p2", empty, empty + b"\0"),
    ("operation that is cut: INSUFFICIENT/p3", empty + bytes(2), empty + bytes(3)),
    ("An operation over B: VALUE/p3", *(text(b"", 0, it) for it in (0xC, 0x10, 0x100, 0xFFFF))),
    ("An operation over B, and a byte after it: VALUE/p3", text(b"", 0, 0xC) + b"\0"),
    ("A byte after the operation: SIZE", text() + b"\0"),
):
    tpm.fails(words, *(right.but(parameters=it) for it in texts))
tpm.digest_is("The digest is unchanged", trial)

tpm.chapter("By sessions.")
hmac = tpm.start("An HMAC session that is bound to the index, with AES", bind=FIRST, aes=True)
tpm.restarts(session)
tpm("By it").comparing(session, FIRST, b"8", hmac)
tpm("With operandB encrypted").comparing(session, FIRST, b"8 bytes.", hmac.decrypting)
once = after(session, zeros(session), FIRST, b"8", 0, EQ)
tpm.digest_is(
    "The digest depends on the decrypted operandB",
    session,
    after(session, once, FIRST, b"8 bytes.", 0, EQ),
)
said = tpm("encrypt, but nothing is answered: ATTRIBUTES/s1")
said.fails(tpm.comparing(session, FIRST, b"8", hmac).but_entry(1, attributes=0x41))

tpm.chapter("By a policy: the index authorizes itself by the very session of the command.")
auth_policy = policy.after_auth_value(SHA256, bytes(32))
tpm.define("An index", area(FIFTH, BY_POLICY, auth_policy=auth_policy), auth=b"a")
by_value = lambda: Use(session, demand=policy.AUTH_VALUE)
tpm.restarts(session)
tpm("TPM2_PolicyAuthValue").auth_value_told(session)
tpm("TPM2_NV_Write").writing(FIFTH, b"x", by_value())
tpm("TPM2_PolicyAuthValue").auth_value_told(session)
case = "TPM2_PolicyNV to the session by itself: it is asserted, and then the session starts"
tpm(f"{case} again").comparing(session, FIFTH, b"x", by_value())
tpm.digest_is("The digest is zeros", session, zeros(session))
tpm("TPM2_PolicyAuthValue").auth_value_told(session)
tpm("To the trial session").comparing(trial, FIFTH, b"x", by_value())
tpm("By the trial session: ATTRIBUTES/s1").comparing(trial, FIFTH, b"x", trial)
