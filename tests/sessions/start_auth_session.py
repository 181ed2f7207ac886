"""Makes start_auth_session.tpm. TPM2_StartAuthSession starts an HMAC session, a policy session or
a trial session. Its handles are tpmKey and bind; its parameters are nonceCaller, encryptedSalt,
sessionType, symmetric and authHash.
"""

from dataclasses import replace

from tpmsim.standard import area
from tests.common.policy_teller import ENTITIES
from tests.common.script_caller import KINDS
from tests.common.session_matrix import matrix, SessionCase
from tests.common.vocabulary import ALG_NULL, CC, command, ENDS, entry, frames, number, RH_LOCKOUT
from tests.common.vocabulary import RH_NULL, RH_OWNER, RS_PW, SHA1, SHA256, sized, Teller, Use

NONCE = bytes(range(16))
NULLS = [RH_NULL, RH_NULL]

tpm = Teller(__name__, __doc__, starts=False)


def on(handles, parameters):
    return command(CC.StartAuthSession, b"".join(number(it, 4) for it in handles) + parameters)


def start(**changes):
    return on(*frames.start_auth_session(**{"nonce": NONCE, **changes}))


def refused(words, *choices):
    """Sends TPM2_StartAuthSession with each of these sets of values. Each command must be refused."""
    tpm.raw(words, *(start(**it) for it in choices))


def each(words, name, *values):
    """Sends TPM2_StartAuthSession with each of these values of one field. Each command must be
    refused.
    """
    refused(words, *({name: it} for it in values))


def start_text(**changes):
    """Returns the parameters of TPM2_StartAuthSession with these values."""
    return frames.start_auth_session(**{"nonce": NONCE, **changes})[1]


def heads(words, *texts, tag=frames.NO_SESSIONS):
    """Sends TPM2_StartAuthSession with each of these texts after its header."""
    tpm.raw(words, *(command(CC.StartAuthSession, it, tag) for it in texts))


def texts(words, *those):
    """Sends TPM2_StartAuthSession with each of these parameter areas."""
    tpm.raw(words, *(on(NULLS, it) for it in those))


def ciphers(words, *those, rest=number(SHA256, 2)):
    """Sends TPM2_StartAuthSession with each of these texts as its parameter symmetric. `rest` is
    authHash.
    """
    texts(words, *(sized(NONCE) + sized(b"") + b"\0" + it + rest for it in those))


def numbers(*values):
    return b"".join(number(it, 2) for it in values)


def starts(what, case):
    """Starts a session, uses it once, and flushes it."""
    session = case.start(tpm, what)
    if case.kind == frames.SE_HMAC:
        assert session.handle == 0x0200_0000
        tpm("").reset(session)
    else:
        assert session.handle == 0x0300_0000
        tpm("").random(4, session)
    tpm.accepted("", tpm.flush(session))


refused("Before TPM2_Startup: INITIALIZE", {})
tpm.startup()

NULL = number(RH_NULL, 4)
tpm.chapter("The handles, one after the other.")
heads("No handle, and two bytes of one: INSUFFICIENT/h1", b"", b"\x40\0")
each(
    "Salted sessions are not served: a tpmKey that is not TPM_RH_NULL, here TPM_RH_OWNER, PCR "
    "0, a transient object, a persistent one, an NV index and a session: VALUE/h1",
    *("tpm_key", RH_OWNER, 0, 0x8000_0000, 0x8100_0000, 0x0100_0000, 0x0200_0000),
)
heads("tpmKey is checked before bind is read: VALUE/h1", number(RH_OWNER, 4))
heads("No bind, and three bytes of it: INSUFFICIENT/h2", NULL, NULL + b"\x40\0\0")
each(
    "A bind that is no entity: PCR 24, TPM_RS_PW, two other permanent handles, an HMAC "
    "session, a policy session, and a number of no kind: VALUE/h2",
    *("bind", 24, RS_PW, 0x4000_0000, 0x4000_0008, 0x0200_0000, 0x0300_0000, 0xFF00_0000),
)
each("A transient object, while there is none: REFERENCE_H1", "bind", 0x8000_0000, 0x80FF_FFFF)
case = "A persistent object, and an NV index, while there are none: HANDLE/h2"
each(case, "bind", 0x8100_0000, 0x0100_0000)
case = "With sessions (tag 8002) and no authorization area, after the handles: AUTHSIZE"
heads(case, NULL * 2, tag=frames.SESSIONS)
case = "A password, which authorizes nothing here: HANDLE/s1"
heads(case, NULL * 2 + area(entry()), tag=frames.SESSIONS)

tpm.chapter("The parameters, read in order.")
texts("nonceCaller that is cut: INSUFFICIENT/p1", b"", b"\0", number(16, 2) + bytes(15))
case = "One of more than 32 bytes, whole or cut: SIZE/p1"
texts(case, start_text(nonce=bytes(33)), number(33, 2), b"\xff\xff")
texts("encryptedSalt that is cut: INSUFFICIENT/p2", sized(NONCE), sized(NONCE) + b"\0\x01")
case = "One of more than 32 bytes, whole or cut: SIZE/p2"
texts(case, start_text(salt=bytes(33)), sized(NONCE) + number(33, 2))
texts("No sessionType: INSUFFICIENT/p3", sized(NONCE) + sized(b""))
each(
    "A sessionType other than the three, TPM_SE_HMAC (00), TPM_SE_POLICY (01) and "
    "TPM_SE_TRIAL (03): VALUE/p3",
    *("kind", 0x02, 0x04, 0x05, 0x80, 0xFF),
)
AES, KEY = numbers(frames.AES), numbers(frames.AES, 128)
case = "symmetric that is cut within its algorithm, its keyBits and its mode: INSUFFICIENT/p4"
ciphers(case, b"", b"\0", AES, AES + b"\0", KEY, KEY + b"\0", rest=b"")
ciphers(
    "An algorithm that is neither AES nor TPM_ALG_XOR nor TPM_ALG_NULL, here TPM_ALG_SHA256 and "
    "TPM_ALG_CAMELLIA: SYMMETRIC/p4",
    numbers(SHA256),
    numbers(0x0026, 128, frames.CFB),
)
HASH = numbers(SHA256)
keys = [numbers(frames.AES, bits, frames.CFB) + HASH for bits in (256, 192)]
ciphers("Keys of 256, 192 and 0 bits: VALUE/p4", *keys, numbers(frames.AES, 0), rest=b"")
case = "Modes that are not CFB: TPM_ALG_CBC, TPM_ALG_CTR and TPM_ALG_NULL: MODE/p4"
modes = KEY + numbers(0x0042) + HASH, KEY + numbers(0x0040) + HASH, KEY + numbers(ALG_NULL)
ciphers(case, *modes, rest=b"")
NONE = numbers(ALG_NULL)
ciphers("No authHash, and half of it: INSUFFICIENT/p5", NONE, NONE + b"\0", rest=b"")
case = "One that is neither SHA-1 nor SHA-256, here TPM_ALG_NULL, TPM_ALG_SHA384 and TPM_ALG_HMAC"
each(f"{case}: HASH/p5", "algorithm", ALG_NULL, 0x000C, 0x0005)
texts("A byte after them: SIZE", start_text() + b"\0")

tpm.chapter("Of two faults, the response reports the one that is read first.")
XOR = numbers(frames.XOR)
case = "nonceCaller that says too much, and a sessionType of 02: SIZE/p1"
refused(case, dict(nonce=bytes(33), kind=0x02))
case = "A sessionType of 02 with TPM_ALG_XOR: VALUE/p3"
texts(case, sized(NONCE) + sized(b"") + b"\x02" + XOR + HASH)
ciphers("TPM_ALG_XOR with a wrong hash, and no authHash: HASH/p4", XOR + numbers(0x000C), rest=b"")

tpm.chapter("The command's own checks come after all of these.")
both = dict(nonce=bytes(15), salt=b"\x01")
texts("A nonce of 15 bytes and a salt, and a byte left over: SIZE", start_text(**both) + b"\0")
refused("A nonce of 15 bytes and a salt, and a wrong hash: HASH/p5", both | {"algorithm": 0x000C})
each("A nonce of no bytes and one of 15: SIZE/p1", "nonce", b"", bytes(15))
case = "One of more bytes than the digest has, 21 and 32 for SHA-1: SIZE/p1"
refused(case, *(dict(nonce=bytes(it), algorithm=SHA1) for it in (21, 32)))
refused("A nonce of 15 bytes, and a salt: SIZE/p1", both)
each("A salt of 1 byte and of 32: VALUE/p2", "salt", b"\x01", bytes(32))

tpm.chapter("None of these refusals started a session. What starts one, and it is ended again:")
SHORT, *OTHER_NONCES = (*matrix(size=(16, 20, 32)), *matrix(algorithm=[SHA1], size=(16, 20)))
starts(f"{SHORT.nonces}, then TPM2_PCR_Reset by it, and TPM2_FlushContext", SHORT)
for case in OTHER_NONCES:
    starts(case.nonces, case)
starts("AES", SessionCase(cipher=frames.AES))
starts("AES with SHA-1 and a nonce of 17 bytes", SessionCase(SHA1, 17, frames.AES))
for case in matrix(bind=ENTITIES):
    empty = "whose authorization value is empty; TPM2_PCR_Reset by an hmac"
    starts(f"Bound to {case.bound_to}, {empty}", case)

LONG = SessionCase(size=32), SessionCase(SHA1, size=20)
POLICY_CASES = (
    *((it.nonces, it) for it in (SHORT, *LONG)),
    ("AES", SessionCase(cipher=frames.AES)),
    ("Bound to TPM_RH_OWNER", SessionCase(bind=RH_OWNER)),
    ("Bound to TPM_RH_LOCKOUT", SessionCase(bind=RH_LOCKOUT, cipher=frames.AES)),
    ("Bound to PCR 23", SessionCase(SHA1, bind=23)),
)
for kind, name in KINDS:
    tpm.chapter(f"A {name} session, of the same lowest number, and it is ended.")
    for what, case in POLICY_CASES:
        starts(f"{what}, TPM2_GetRandom and TPM2_FlushContext", replace(case, kind=kind))
    sizes = dict(nonce=bytes(15), kind=kind), dict(nonce=bytes(21), algorithm=SHA1, kind=kind)
    refused("A nonce of 15 bytes, and of 21 for SHA-1: SIZE/p1", *sizes)
    refused("A salt: VALUE/p2", dict(salt=b"\x01", kind=kind))
    refused("A tpmKey: VALUE/h1", dict(tpm_key=RH_OWNER, kind=kind))
    refused("A wrong hash: HASH/p5", dict(algorithm=ALG_NULL, kind=kind))

tpm.chapter("Sessions for the command, which authorize nothing.")
first = tpm.start("A session, bound to TPM_RH_OWNER", RH_OWNER)
second = tpm.start("Another session, started with the first one as an entry", uses=[first])
assert second.handle == 0x0200_0001
third = tpm.start(
    "A third one, bound to TPM_RH_OWNER, with both as entries|and the new session's nonce is "
    "drawn before those of the entries",
    RH_OWNER,
    uses=[second, first],
    size=32,
)
tpm("By that one").reset(third)
handles, parameters = frames.start_auth_session(NONCE, RH_OWNER)
beside = tpm.prepare(CC.StartAuthSession, handles, parameters, first)
other_bind = beside.but(handles=[RH_NULL, RH_LOCKOUT])
tpm.refused("With another bind than the hmac is of: BAD_AUTH/s1", other_bind)
for session in (third, second, first):
    tpm.accepted("The session ends", tpm.flush(session))

tpm.chapter("There are sixteen sessions at most.")
sessions = []
for place in range(16):
    what = "" if place else "Sixteen are started, and each has the lowest free number"
    sessions.append(tpm.start(what, RH_OWNER))
    assert sessions[-1].handle == 0x0200_0000 + place
refused("The seventeenth: SESSION_MEMORY", {}, dict(aes=True))
refused("A salt, which is looked at before: VALUE/p2", dict(salt=b"\0"))
refused("A nonce of 15 bytes, which is too: SIZE/p1", dict(nonce=bytes(15)))
said = tpm("Another session that would end gives its place up too late: SESSION_MEMORY")
said.prepare(CC.StartAuthSession, *frames.start_auth_session(NONCE), Use(sessions[4], ENDS))
tpm("The session has not ended, and has the same nonce").reset(sessions[4])
tpm.accepted("Two are flushed, the tenth", tpm.flush(sessions[9]))
tpm.accepted("And the fourth", tpm.flush(sessions[3]))
assert tpm.start("The next takes the lowest free number").handle == 0x0200_0003
assert tpm.start("And the next the other").handle == 0x0200_0009
refused("Then there is none again: SESSION_MEMORY", {})
tpm("One ends as it is used").reset(Use(sessions[0], ENDS))
assert tpm.start("And its number is free").handle == 0x0200_0000
tpm("The others are as they were").reset(sessions[15])

tpm.chapter("TPM_ALG_XOR, followed by the hash that makes its masks.")
ciphers("It is cut, before its hash and within it: INSUFFICIENT/p4", XOR, XOR + b"\0", rest=b"")
ciphers(
    "A hash that is neither SHA-1 nor SHA-256, here TPM_ALG_NULL, TPM_ALG_SHA384 and the 128 of a "
    "key: HASH/p4",
    *(XOR + numbers(it) for it in (ALG_NULL, 0x000C, 128)),
)
ciphers("It comes before authHash: HASH/p4", XOR + NONE, rest=NONE)
ciphers("No authHash: INSUFFICIENT/p5", XOR + HASH, rest=b"")
ciphers("A wrong one: HASH/p5", XOR + HASH, rest=NONE)
OTHERS = dict(xor=SHA1), dict(xor=SHA256, algorithm=SHA1)
refused(
    "Another hash than authHash, SHA-1 in a session of SHA-256 and the other way round; there is "
    "no place for a session either: HASH/p4",
    *OTHERS,
)
refused("And a salt: VALUE/p2", *(it | {"salt": b"\1"} for it in OTHERS))
refused("And a nonce of 15 bytes: SIZE/p1", *(it | {"nonce": bytes(15)} for it in OTHERS))
texts("And a byte after it: SIZE", *(start_text(**it) + b"\0" for it in OTHERS))
case = "The same hash, and there is no place: SESSION_MEMORY"
refused(case, *(dict(xor=it, algorithm=it) for it in (SHA1, SHA256)))
tpm.accepted("The first is flushed", tpm.flush(sessions[0].handle))
refused("Another hash, while there is a place: HASH/p4", *OTHERS)
starts("The same one, SHA-256", SessionCase(cipher=frames.XOR))
starts("SHA-1", SessionCase(SHA1, 20, frames.XOR))
starts("Bound to TPM_RH_OWNER", SessionCase(size=32, cipher=frames.XOR, bind=RH_OWNER))
for kind, name in KINDS:
    session = tpm.start(f"A {name} session", kind=kind, xor=True)
    assert session.handle == 0x0300_0000
    tpm("TPM2_GetRandom by it").random(4, session)
    tpm.accepted("The session is flushed", tpm.flush(session))
