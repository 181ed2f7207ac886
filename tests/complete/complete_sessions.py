"""Makes complete_sessions.tpm. Sessions with the commands of the complete profile: they authorize
TPM2_ClockSet and TPM2_ClockRateAdjust, decrypt the data for TPM2_StirRandom and TPM2_Hash, and
encrypt the answers of TPM2_GetTestResult and TPM2_Hash. TPM2_IncrementalSelfTest and TPM2_TestParms
accept them, and have nothing to encrypt.
"""

import hashlib
import hmac

from tests.common.vocabulary import CC, CONTINUE_SESSION, DECRYPT, DECRYPTS, ENCRYPT, ENCRYPTS
from tests.common.vocabulary import ENDS, frames, number, RH_NULL, RH_OWNER, RH_PLATFORM, SE_POLICY
from tests.common.vocabulary import SHA1, SHA256, sized, Teller, Use, wrong_in

SUPPLIED = sized(b"supplied")
PASSED = sized(b"") + number(0, 4)
EVERYTHING = CONTINUE_SESSION | DECRYPT | ENCRYPT

# The owner's proof, since the device is manufactured from the bytes 00 to FF.
PROOF = bytes(range(0x80, 0xA0))

tpm = Teller(__name__, __doc__, tries=True)


def setting(time, *means, by=RH_OWNER):
    return tpm.prepare(CC.ClockSet, [by], number(time, 8), *means)


def adjusting(rate, *means):
    return tpm.prepare(CC.ClockRateAdjust, [RH_OWNER], number(rate, 1), *means)


def stirring(*means):
    return tpm.prepare(CC.StirRandom, [], SUPPLIED, *means)


def asking(*means):
    return tpm.prepare(CC.GetTestResult, [], b"", *means)


def hashing(data, *means, by=RH_OWNER):
    return tpm.prepare(CC.Hash, [], sized(data) + number(SHA256, 2) + number(by, 4), *means)


def answer_of(data):
    """Returns the digest of the data, and the owner's ticket."""
    found = hashlib.sha256(data).digest()
    check = hmac.digest(PROOF, number(0x8024, 2) + found, "sha256")
    return sized(found) + number(0x8024, 2) + number(RH_OWNER, 4) + sized(check)


def testing(algorithms, *means):
    listed = b"".join(number(it, 2) for it in algorithms)
    return tpm.prepare(CC.IncrementalSelfTest, [], number(len(algorithms), 4) + listed, *means)


def trying(parameters, *means):
    return tpm.prepare(CC.TestParms, [], bytes.fromhex(parameters), *means)


def authorized():
    tpm.chapter("An HMAC session authorizes both commands.")
    tpm("TPM2_HierarchyChangeAuth of the owner").change_auth(RH_OWNER, b"owner", b"")
    session = tpm.start("A session that is bound to nothing")
    tpm.does("TPM2_ClockSet", setting(5000, session))
    tpm.does("TPM2_ClockRateAdjust", adjusting(3, session))
    said = "By an hmac with a changed bit: BAD_AUTH/s1"
    tpm.fails(said, wrong_in(setting(5001, session)), wrong_in(adjusting(3, session)))
    said = "A right hmac, and a time that is past: VALUE/p1"
    tpm.fails(said, setting(4999, session))
    tpm.fails("And no adjustment: VALUE/p1", adjusting(4, session))
    said = "Neither command has a parameter that a session can decrypt: ATTRIBUTES/s1"
    entry = frames.entry(session.handle, bytes(16), DECRYPTS)
    tpm.raw(said, frames.command(CC.ClockSet, body(entry, number(6000, 8)), frames.SESSIONS))
    tpm.does("The session ends with the command", setting(5002, Use(session, ENDS)))


def body(entry, parameters):
    return number(RH_OWNER, 4) + frames.area(entry) + parameters


def by_policy():
    tpm.chapter("A policy session, but no hierarchy has a policy.")
    session = tpm.start("The session is started", kind=SE_POLICY)
    tpm.fails("TPM2_ClockSet: AUTH_UNAVAILABLE", setting(6000, session))


def encrypted():
    tpm.chapter("Sessions that encrypt.")
    session = tpm.start("A session with AES", aes=True)
    tpm.does("TPM2_StirRandom, whose data the session decrypts", stirring(Use(session, DECRYPTS)))
    said = "TPM2_StirRandom has no answer that a session can encrypt: ATTRIBUTES/s1"
    tpm.fails(said, stirring(Use(session, ENCRYPTS)))
    answer = tpm.does(
        "TPM2_GetTestResult, whose answer it encrypts", asking(Use(session, ENCRYPTS))
    )
    assert answer == PASSED
    said = "TPM2_GetTestResult has no parameter that a session can decrypt: ATTRIBUTES/s1"
    tpm.raw(said, decrypting(session))
    tpm.does("Without encryption, TPM2_StirRandom", stirring(session))
    assert tpm.does("And TPM2_GetTestResult", asking(session)) == PASSED
    tpm.fails("By a wrong hmac: BAD_AUTH/s1", wrong_in(stirring(Use(session, DECRYPTS))))
    said = "The session of TPM2_ClockSet encrypts nothing: ATTRIBUTES/s2"
    tpm.fails(said, setting(7000, b"", Use(session, ENCRYPTS), by=RH_PLATFORM))
    tpm.does("A password, and the session", setting(7000, b"", session, by=RH_PLATFORM))


def decrypting(session, code=CC.GetTestResult, parameters=b""):
    entry = frames.entry(session.handle, bytes(16), DECRYPTS)
    return frames.command(code, frames.area(entry) + parameters, frames.SESSIONS)


def hashed(cipher, **kind):
    tpm.chapter(f"TPM2_Hash, by a session with {cipher}.")
    session, data = tpm.start("The session is started", **kind), b"the data"
    for words, means in (
        ("The session decrypts the data", Use(session, DECRYPTS)),
        ("It encrypts the digest", Use(session, ENCRYPTS)),
        ("It does both", Use(session, EVERYTHING)),
        ("It does neither", session),
    ):
        assert tpm.does(words, hashing(data, means)) == answer_of(data)
    said = "Data that begin like the TPM's own get a NULL ticket"
    answer = tpm.does(said, hashing(b"\xffTCG", Use(session, EVERYTHING)))
    assert answer[34:] == number(0x8024, 2) + number(RH_NULL, 4) + sized(b"")
    assert tpm.does("No data", hashing(b"", Use(session, EVERYTHING))) == answer_of(b"")
    assert tpm.does("1,024 bytes", hashing(bytes(1024), Use(session, EVERYTHING)))
    tpm.fails("1,025 bytes: SIZE/p1", hashing(bytes(1025), Use(session, EVERYTHING)))
    tpm.fails("By a wrong hmac: BAD_AUTH/s1", wrong_in(hashing(data, Use(session, EVERYTHING))))
    said = "A handle that names no hierarchy: VALUE/p3"
    tpm.fails(said, hashing(data, Use(session, DECRYPTS), by=0))
    said = "A size that is cut off: INSUFFICIENT/p1"
    tpm.fails(said, tpm.prepare(CC.Hash, [], b"\0", session))


def tested():
    tpm.chapter("TPM2_IncrementalSelfTest and TPM2_TestParms, with sessions that go on.")
    session = tpm.start("A session with AES", aes=True)
    assert tpm.does("SHA-1 and SHA-256", testing([SHA1, SHA256], session)) == number(0, 4)
    tpm.fails("RSA: VALUE/p1", testing([1], session))
    tpm.does("A KEYEDHASH without a scheme", trying("00080010", session))
    tpm.fails("RSA: TYPE/p1", trying("00010010", session))
    said = "By a wrong hmac: BAD_AUTH/s1"
    tpm.fails(said, wrong_in(testing([SHA1], session)), wrong_in(trying("00080010", session)))
    said = "Neither has a parameter that a session can decrypt: ATTRIBUTES/s1"
    tpm.raw(said, decrypting(session, CC.IncrementalSelfTest, number(0, 4)))
    tpm.raw(said, decrypting(session, CC.TestParms, bytes.fromhex("00080010")))
    said = "Nor an answer that a session can encrypt: ATTRIBUTES/s1"
    tpm.fails(said, testing([SHA1], Use(session, ENCRYPTS)))
    tpm.fails(said, trying("00080010", Use(session, ENCRYPTS)))
    tpm.does("The session ends with the command", trying("0025000600800043", Use(session, ENDS)))


authorized()
by_policy()
encrypted()
hashed("AES", aes=True)
hashed("XOR", xor=SHA256)
tested()
