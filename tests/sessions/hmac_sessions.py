"""Makes hmac_sessions.tpm. HMAC sessions authorize commands: unbound, bound to the entity that
they authorize, and bound to another entity. Each of their HMACs was computed by another program.
Each `entropy` line sets new random bytes, so that each command has its own nonces.
"""

from tests.common.policy_teller import PolicyTeller
from tests.common.session_matrix import matrix, set_owner_and_endorsement
from tests.common.vocabulary import CC, ENDS, flipped, frames, RH_ENDORSEMENT, RH_NULL, RH_OWNER
from tests.common.vocabulary import SHA1, SHA256, sized, Use, wrong_in

AUTH = b"owner"

tpm = PolicyTeller(__name__, __doc__)


def refuse_changes(right, algorithm):
    """Sends copies of a right command, each with another value in one part of it."""

    def other_entry(words, name, *values):
        tpm.refused(words, *(right.but_entry(1, **{name: it}) for it in values))

    (entry,) = right.entries
    hmac, nonce = entry.hmac, entry.nonce
    too_long = "BAD_AUTH/s1" if algorithm == SHA1 else "SIZE/s1"
    case = "A wrong hmac: in its last byte, in its first, of half the length, and of no bytes"
    hmacs = flipped(hmac), flipped(hmac, 0), hmac[: len(hmac) // 2], b""
    other_entry(f"{case}: BAD_AUTH/s1", "hmac", *hmacs)
    other_entry(f"And a byte too long: {too_long}", "hmac", hmac + b"\0")
    case = "Another nonce than the one that the hmac is of, and none: BAD_AUTH/s1"
    other_entry(case, "nonce", flipped(nonce), b"")
    other_entry("Other attributes, without continueSession: BAD_AUTH/s1", "attributes", ENDS)
    texts = flipped(right.parameters), sized(AUTH[:-1])
    said = tpm("Other parameters, one bit of them or one byte less: BAD_AUTH/s1")
    said.refused(*(right.but(parameters=it) for it in texts))
    said = tpm("Another command, TPM2_PCR_Event, with the handle PCR 16: BAD_AUTH/s1")
    said.refused(right.but(code=CC.PCR_Event, handles=[16]))
    said = tpm("Another handle, TPM_RH_ENDORSEMENT: BAD_AUTH/s1")
    said.refused(right.but(handles=[RH_ENDORSEMENT]))


set_owner_and_endorsement(tpm, 'ownerAuth is "owner" from here on')
for case in matrix(bind=(RH_NULL, RH_OWNER, RH_ENDORSEMENT), algorithm=(SHA1, SHA256)):
    tpm.chapter(
        f"A session of {case.hash_name}, bound to {case.bound_to}, on TPM2_HierarchyChangeAuth of "
        'TPM_RH_OWNER, which sets "owner" again.'
    )
    session = case.start(tpm, "TPM2_StartAuthSession")
    right = tpm.change_auth(RH_OWNER, AUTH, session)
    refuse_changes(right, case.algorithm)
    tpm.accepted("As it was computed|and the nonces are new, which no refusal did", right)
    tpm.refused("The same buffer again, with an outdated nonce: BAD_AUTH/s1", right)
    said = tpm("With the new nonce|and the session ends")
    said.change_auth(RH_OWNER, AUTH, Use(session, ENDS))
    tpm("The session no longer exists: REFERENCE_S0").change_auth(RH_OWNER, AUTH, session)

tpm.chapter("The key of an hmac.")
changing = tpm.change_auth, RH_OWNER, AUTH
bound = tpm.start("A session bound to TPM_RH_OWNER", RH_OWNER)
other = tpm.start("Another session, bound to TPM_RH_ENDORSEMENT", RH_ENDORSEMENT)
unbound = tpm.start("An unbound session")
said = tpm("Bound to the entity, and its authorization value in the key all the same: BAD_AUTH/s1")
said.refused(tpm.with_key(bound.key + AUTH, *changing, bound))
case = "Bound to another, without the entity's value, and with the value of that other one"
keys = other.key, other.key + b"endorsement"
tpm.refused(f"{case}: BAD_AUTH/s1", *(tpm.with_key(it, *changing, other) for it in keys))
said = tpm("Unbound, without the entity's value, and by no hmac at all: BAD_AUTH/s1")
said.refused(
    *(tpm.with_key(b"", *changing, it) for it in (Use(unbound, shows_empty_key=True), unbound))
)
for session, words in ((bound, "bound to it"), (other, "bound to another"), (unbound, "unbound")):
    tpm(f"As the rule is, {words}").change_auth(RH_OWNER, AUTH, session)
said = tpm("The session that is bound to TPM_RH_OWNER on TPM_RH_ENDORSEMENT")
said.change_auth(RH_ENDORSEMENT, b"endorsement", bound)
tpm("The same session on PCR 16, whose authorization value is empty").reset(bound)

tpm.chapter("A refused command leaves the session's nonce, whatever refused it.")
tpm.refused("TPM2_PCR_Reset of PCR 0, which has a right hmac: LOCALITY", tpm.reset(bound, pcr=0))
said = tpm("The same without continueSession, and the session does not end: LOCALITY")
said.reset(Use(bound, ENDS), pcr=0)
tpm("TPM2_PCR_Event of 1,025 bytes, with a right hmac: SIZE/p1").event(bytes(1025), bound)
corrected = tpm.reset(bound)
tpm.refused("PCR 16 with a wrong hmac: BAD_AUTH/s1", corrected.but_entry(1, hmac=bytes(32)))
tpm.accepted("And with the right one, of the nonce that was there before them", corrected)

tpm.chapter("Empty keys: an unbound session on an entity whose authorization value is empty.")
tpm("An empty hmac, which is answered by an empty one").reset(unbound)
tpm("An hmac by the empty key, which is answered by one").reset(Use(unbound, shows_empty_key=True))
shown = tpm.reset(Use(unbound, shows_empty_key=True))
case = "A wrong one, here one byte, and with a wrong bit: BAD_AUTH/s1"
tpm.refused(case, shown.but_entry(1, hmac=b"\0"), wrong_in(shown))
tpm.accepted("The right one", shown)
said = tpm("With no hmac, in a session bound to TPM_RH_OWNER, which has a key: BAD_AUTH/s1")
said.refused(tpm.reset(bound).but_entry(1, hmac=b""))
to_pcr = tpm.start("A session bound to PCR 16, which has a key, of an empty value", 16)
tpm.refused("With no hmac: BAD_AUTH/s1", tpm.reset(to_pcr).but_entry(1, hmac=b""))
tpm("With its hmac").reset(to_pcr)
tpm.accepted("The session ends", tpm.flush(to_pcr))

tpm.chapter("Nonces of the caller have any length up to 32 bytes.")
for nonce, words in ((b"", "no nonce"), (b"\x5a", "one byte"), (bytes(32), "32 bytes")):
    tpm(f"With {words}").reset(Use(bound, nonce=nonce))

tpm.chapter("Sessions that authorize nothing, as entries of TPM2_GetRandom.")
tpm("One session, bound to TPM_RH_OWNER").random(4, bound)
tpm("Three, of which the unbound one has an empty hmac").random(4, other, unbound, bound)
wrong = tpm.random(4, other, unbound, bound)
tpm.refused("The third with a wrong hmac: BAD_AUTH/s3", wrong_in(wrong, 3))
tpm.refused("The unbound one with a wrong hmac: BAD_AUTH/s2", wrong.but_entry(2, hmac=bytes(32)))
tpm.accepted("The right ones", wrong)
tpm("TPM2_PCR_Reset by a password, and two sessions in addition").reset(b"", other, bound)
tpm("Of three the second ends|and the others stay").random(2, other, Use(unbound, ENDS), bound)
tpm("The second again: REFERENCE_S1").random(2, other, unbound, bound)
tpm("The others").random(2, other, bound)

tpm.chapter("Authorization values with trailing zeros count without them.")
tpm('ownerAuth is "own" and two zeros').change_auth(RH_OWNER, b"own\0\0", bound)
said = tpm('Bound to TPM_RH_OWNER while that had another value, and so with "own" in the key')
said.change_auth(RH_OWNER, b"own\0\0\0", bound)
trailing = tpm.start('A session that is bound to it now, with a key of "own"', RH_OWNER)
said = tpm('Set to "own" the value stays the same, and so does the binding')
said.change_auth(RH_OWNER, b"own", trailing)
tpm("And without it in the response's key").change_auth(RH_OWNER, b"own\0", trailing)

for time in range(1, 41):
    what = "" if time > 1 else "A session is used 40 times, here by TPM2_PCR_Event into PCR 16"
    tpm(what).event(b"time %d" % time, trailing)
tpm.accepted("TPM2_PCR_Read of PCR 16", tpm.read_pcr(16))

tpm("New random bytes, and so a new nonce").reset(trailing)
again = tpm.reset(trailing)
for what in ("If they stay the same the nonce does too, and a buffer is accepted again", "", ""):
    tpm.received(again, tpm.raw(f"{what}: SUCCESS", again.buffer()))
tpm.accepted("Once more, and the random bytes are others", again)
tpm.refused("So the buffer is not accepted again: BAD_AUTH/s1", again)

tpm.chapter("The longest response that there is, 601 bytes.")
banks = frames.selection((SHA256, range(8)), *15 * [(SHA256, range(24))])
three = [tpm.start("A session with a nonce of 32 bytes", RH_OWNER, size=32) for _ in range(3)]
said = tpm("TPM2_PCR_Read of sixteen banks, with three sessions of SHA-256 and nonces of 32 bytes")
said.prepare(CC.PCR_Read, [], banks, *three)
assert len(tpm.last.response) == 601
