"""Makes policy_sessions.tpm. Policy sessions and trial sessions use the same sixteen slots as HMAC
sessions. Their handles begin with 03, and those of HMAC sessions with 02.
"""

from tests.common.vocabulary import CC, Entry, flipped, frames, HASHES, number, RH_LOCKOUT, RH_OWNER
from tests.common.vocabulary import SE_HMAC, SE_POLICY, SE_TRIAL, SHA1, SHA256, Teller, Use, zeros

PLACES = 16
NAMES = {SE_HMAC: "HMAC", SE_POLICY: "policy", SE_TRIAL: "trial"}

tpm = Teller(__name__, __doc__, starts=False)


def start(kind, place, what, **choices):
    session = tpm.start(what, kind=kind, **choices)
    assert session.handle & 0xFF_FFFF == place
    return session


def flush(handle):
    return frames.command(CC.FlushContext, number(handle, 4))


def get_digest(handle):
    return frames.command(CC.PolicyGetDigest, number(handle, 4))


def random_by(handle):
    """Returns a TPM2_GetRandom with a session whose nonce the caller does not know."""
    return tpm.random(1).but(entries=[Entry(handle, b"", 1, b"")])


def tell(session, code, mask, cp_hash):
    """Makes an assertion of each kind that a session accepts only once, or only with the same
    value.
    """
    said = tpm("TPM2_PolicyCommandCode, TPM2_PolicyLocality, TPM2_PolicyPCR: SUCCESS")
    said.says(
        tpm.command_code(session, code), tpm.locality(session, mask), tpm.pcrs(session, PCR_0)
    )
    tpm.accepted("TPM2_PolicySecret", tpm.secret(session, b"", cp_hash=cp_hash))


def is_policy_session(session):
    tpm("As no trial session it is refused a wrong list: VALUE/p1").branches(session, b"x", b"y")


tpm.startup()
tpm.chapter("Sixteen policy sessions, and trial sessions among them.")
sessions = []
for place in range(PLACES):
    kind = SE_TRIAL if place % 4 == 3 else SE_POLICY
    algorithm, _ = HASHES[place % 2]
    what = "" if place else "Each has the lowest free place"
    sessions.append(start(kind, place, what, bind=RH_OWNER, algorithm=algorithm))
for kind, name in NAMES.items():
    said = tpm(f"A seventeenth one: a {name} session: SESSION_MEMORY")
    said.prepare(CC.StartAuthSession, *frames.start_auth_session(bytes(16), kind=kind))
tpm.says("Each has zeros: SUCCESS", *map(tpm.get_digest, sessions))
tpm("The ninth gets an assertion").auth_value_told(sessions[8])
tpm.digest_is("The eleventh is not", sessions[10], zeros(sessions[10]))
tpm("Three of them with TPM2_GetRandom").random(4, *sessions[2:5])
said = tpm("Another session that would end gives its place up too late: SESSION_MEMORY")
new = frames.start_auth_session(bytes(16), kind=SE_POLICY)
said.prepare(CC.StartAuthSession, *new, Use(sessions[4], 0))
flushed = sessions[5], sessions[3]
tpm.says("The sixth and the fourth are flushed: SUCCESS", *map(tpm.flush, flushed))
tpm.says("They are no more: REFERENCE_H0", *map(tpm.get_digest, flushed))
hmac = start(SE_HMAC, 3, "An HMAC session takes the lowest free place", bind=RH_OWNER)
policy = start(SE_POLICY, 5, "And a policy session the other", bind=RH_OWNER)
tpm.digest_is("The digest begins with zeros", policy, zeros(policy))

tpm.chapter("A handle is that of a place and a kind.")
said = tpm("The place of the HMAC session, as a policy session's: REFERENCE_H0")
said.raw(get_digest(0x0300_0003))
tpm.raw("In TPM2_FlushContext: HANDLE/p1", flush(0x0300_0003))
tpm.refused("As an entry: REFERENCE_S0", random_by(0x0300_0003))
said = tpm("The place of a policy session, as an HMAC session's: HANDLE/p1")
said.raw(flush(0x0200_0005), flush(0x0200_0000))
tpm.refused("As an entry: REFERENCE_S0", random_by(0x0200_0005), random_by(0x0200_0000))
said = tpm("Handles of places that there are not: HANDLE/p1")
said.raw(*map(flush, (0x0300_0010, 0x0300_0100, 0x0301_0000, 0x03FF_FFFF)))
tpm("The two of those places, by their right handles").reset(hmac, policy)
tpm("The HMAC session is flushed").flush(hmac)
trial = start(SE_TRIAL, 3, "A trial session has its place", bind=RH_OWNER)
tpm.raw("And the handle 02000003 is no more: HANDLE/p1", flush(0x0200_0003))
tpm("As an entry: REFERENCE_S0").random(1, hmac)

tpm.chapter("A new session in the place of one with assertions has none of them.")
CP_HASHES = bytes([1]) * 32, bytes([2]) * 32
PCR_0 = [(SHA256, [0])]
tpm("A trial session ends").flush(sessions[7])
told = start(SE_POLICY, 7, "A policy session in its place")
is_policy_session(told)
tell(told, 0x15E, 1, CP_HASHES[0])
tpm.accepted("TPM2_PCR_Reset of PCR 16", tpm.reset(b""))
tpm("It ends by its use").random(1, Use(told, 0))
told = start(SE_POLICY, 7, "A policy session in its place")
tell(told, 0x14E, 2, CP_HASHES[1])
is_policy_session(told)
tpm.accepted("TPM2_PCR_Reset of PCR 16", tpm.reset(b""))
tpm("It ends by TPM2_FlushContext").flush(told)
told = start(SE_TRIAL, 7, "A trial session in its place")
tell(told, 0x15E, 4, CP_HASHES[0])
tpm("As a trial session it takes any").branches(told, b"x", b"y")
tpm("It ends by TPM2_FlushContext").flush(told)
told = start(SE_POLICY, 7, "And a policy session again")
tpm.digest_is("The digest begins with zeros", told, zeros(told))
is_policy_session(told)
tell(told, 0x173, 8, CP_HASHES[1])

tpm.chapter("A policy session's entry has its own nonce, and ends without continueSession.")
for session, words in ((policy, "policy"), (trial, "trial")):
    told = tpm.random(2, session)
    tpm.accepted(f"The {words} session with TPM2_GetRandom", told)
    tpm.refused("The same again, of a nonce that is past: BAD_AUTH/s1", told)
    tpm("Without continueSession|and it ends").random(2, Use(session, 0))
    tpm("As an entry: REFERENCE_S0").random(2, session)
    tpm("The digest of the session: REFERENCE_H0").get_digest(session)
said = tpm("A session that would end by a refused command: REFERENCE_S1")
said.random(1, Use(sessions[0], 0), policy)
tpm("Is there").get_digest(sessions[0])

tpm.chapter("A refused command changes neither nonce nor policy.")
session = sessions[1]
right = tpm.locality(session, 0, session)
tpm.refused("TPM2_PolicyLocality of nothing, with a right hmac: RANGE/p1", right)
tpm.refused("And again: RANGE/p1", right, tpm.locality(session, 0, Use(session, 0)))
right = tpm.locality(session, 1, session)
tpm.refused("A wrong hmac: BAD_AUTH/s1", right.but_entry(1, hmac=flipped(right.entries[0].hmac)))
tpm.digest_is("The digest is zeros", session, zeros(session))
tpm.accepted("The right one", right)

tpm.chapter("A power cycle ends them all.")
tpm.power_cycle()
said = tpm("No session has a digest: REFERENCE_H0")
said.raw(*(get_digest(0x0300_0000 + it) for it in range(16)))
tpm.raw("Nor can it be flushed: HANDLE/p1", flush(0x0300_0000), flush(0x0300_000F))
again = start(SE_POLICY, 0, "The first place is free", algorithm=SHA1)
tpm.digest_is("A new policy is there", again, zeros(again))
tpm("The session is flushed").flush(again)

tpm.chapter("Nor is anything left in the eighth place, whose session had assertions.")
MIXED = (SE_POLICY, SE_HMAC, SE_TRIAL)
for place in range(8):
    last = start(MIXED[place % 3], place, "" if place else "Eight of each kind are started")
assert last.handle == 0x0200_0007
tpm("An HMAC session has the eighth").flush(last)
last = start(SE_POLICY, 7, "And then a policy session has it")
tpm.digest_is("The digest begins with zeros", last, zeros(last))
tell(last, 0x14E, 16, bytes([3]) * 32)
for place in range(7):
    kind = 0x0200_0000 if MIXED[place % 3] == SE_HMAC else 0x0300_0000
    tpm.raw("SUCCESS" if place else "The others are flushed: SUCCESS", flush(kind | place))
again = start(SE_POLICY, 0, "The first place is free again", algorithm=SHA1)

tpm.chapter("A session of each kind, by what it was started with.")
for bind, words in ((frames.RH_NULL, "nothing"), (RH_LOCKOUT, "TPM_RH_LOCKOUT"), (7, "PCR 7")):
    for algorithm, size in ((SHA1, 16), (SHA1, 20), (SHA256, 16), (SHA256, 32)):
        choices = dict(bind=bind, algorithm=algorithm, size=size, aes=size > 16)
        for kind in (SE_POLICY, SE_TRIAL):
            what = f"A {NAMES[kind]} session that is bound to {words}, with a nonce of {size} bytes"
            session = start(kind, 1, what, **choices)
            tpm("TPM2_GetRandom, and it ends").random(1, Use(session, 0))
