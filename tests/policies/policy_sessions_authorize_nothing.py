"""Makes policy_sessions_authorize_nothing.tpm. A policy session authorizes only entities with a
policy. Hierarchies and PCRs have none: only their authorization value authorizes them. A trial
session never authorizes.
"""

from tests.common.vocabulary import CC, CONTINUE_SESSION, DECRYPT, DECRYPTS, Entry, frames
from tests.common.vocabulary import RH_ENDORSEMENT, RH_LOCKOUT, RH_NULL, RH_OWNER, RH_PLATFORM
from tests.common.vocabulary import Teller, Use, wrong_in, zeros

tpm = Teller(__name__, __doc__)


def commands(session):
    """Yields commands for each kind of handle that needs authorization."""
    digests = frames.digests((frames.SHA1, bytes(20)))
    yield tpm.reset(session)
    yield tpm.prepare(CC.PCR_Extend, [0], digests, session)
    yield tpm.prepare(CC.PCR_Extend, [RH_NULL], digests, session)
    yield tpm.event(b"abc", session)
    yield tpm.event(b"abc", session, pcr=RH_NULL)
    for handle in (RH_OWNER, RH_ENDORSEMENT, RH_PLATFORM, RH_LOCKOUT):
        yield tpm.change_auth(handle, b"new", session)
    for handle in (RH_OWNER, RH_ENDORSEMENT, RH_PLATFORM, RH_LOCKOUT, 0, 16):
        yield tpm.secret(target, session, of=handle)


def reset_by_both():
    tpm("TPM2_PCR_Reset by the policy session: AUTH_UNAVAILABLE").reset(policy)
    tpm("By the trial session: ATTRIBUTES/s1").reset(trial)


tpm.accepted('ownerAuth is "owner"', tpm.change_auth(RH_OWNER, b"owner", b""))
hmac = tpm.start("An HMAC session, bound to TPM_RH_OWNER, with AES", RH_OWNER, aes=True)
policy = tpm.policy("A policy session, bound to nothing, and so without a key")
bound = tpm.policy("A session that is bound to TPM_RH_OWNER, with AES", bind=RH_OWNER, aes=True)
lockout = tpm.policy("A session that is bound to TPM_RH_LOCKOUT", bind=RH_LOCKOUT)
trial = tpm.trial("A trial session, without a key")
keyed = tpm.trial("A session that is bound to TPM_RH_OWNER, with AES", bind=RH_OWNER, aes=True)
target = tpm.policy("A policy session for assertions")
WHAT = "TPM2_PCR_Reset, Extend, Event, HierarchyChangeAuth and PolicySecret"
for words, session in (
    ("policy session without a key: AUTH_UNAVAILABLE", policy),
    ("policy session bound to TPM_RH_OWNER: AUTH_UNAVAILABLE", bound),
    ("policy session bound to TPM_RH_LOCKOUT: AUTH_UNAVAILABLE", lockout),
    ("trial session without a key: ATTRIBUTES/s1", trial),
    ("trial session bound to TPM_RH_OWNER: ATTRIBUTES/s1", keyed),
):
    tpm.refused(f"{WHAT}, by the {words}", *commands(session))

tpm.chapter("Whatever the session has asserted.")
tpm.says("TPM2_PolicyAuthValue: SUCCESS", *map(tpm.auth_value_told, (policy, trial)))
reset_by_both()
tpm.says("TPM2_PolicyPassword: SUCCESS", *map(tpm.password_told, (policy, trial)))
reset_by_both()
for session in (policy, trial):
    tpm.says(
        "TPM2_PolicyCommandCode of another command, and of locality 4: SUCCESS",
        tpm.command_code(session, CC.Unseal),
        tpm.locality(session, 16),
        tpm.pcrs(session, [(frames.SHA256, [16])]),
    )
said = tpm("PCR 16 changes after TPM2_PolicyPCR, by the session bound to TPM_RH_OWNER")
said.event(b"abc", hmac)
reset_by_both()

tpm.chapter("It comes before its own hmac, right or wrong, and before the entries after.")
case = "The hmac wrong, left out, and that of the second entry wrong"
for words, session in (
    (f"{case}: AUTH_UNAVAILABLE", bound),
    ("The same of the trial session: ATTRIBUTES/s1", keyed),
):
    reset = tpm.reset(session, hmac)
    tpm.refused(words, wrong_in(reset, 1), reset.but_entry(1, hmac=b""), wrong_in(reset, 2))
wrong = tpm.change_auth(RH_LOCKOUT, b"x", lockout).but_entry(1, hmac=bytes(32))
case = "A wrong hmac on TPM_RH_LOCKOUT is no try at its value, as no value is looked at"
tpm.refused(f"{case}: AUTH_UNAVAILABLE", wrong)

tpm.chapter("But what is refused of entries whatever their hmacs are comes before.")
absent = Entry(0x0300_0009, b"", CONTINUE_SESSION, b"")
for session in (bound, keyed):
    right = tpm.reset(session)
    said = tpm("A session that does not exist as the second entry: REFERENCE_S1")
    said.refused(right.but(entries=[*right.entries, absent]))
    tpm.refused("The same session twice: HANDLE/s2", right.but(entries=2 * right.entries))
    said = tpm("decrypt, but the first parameter is no sized buffer: ATTRIBUTES/s1")
    said.refused(right.but_entry(1, attributes=DECRYPTS))
    tpm.refused("A reserved attribute: RESERVED_BITS/s1", right.but_entry(1, attributes=0x08))
for session in (policy, trial):
    said = tpm("decrypt in a session without AES, TPM2_PCR_Event: SYMMETRIC/s1")
    said.event(b"abc", session.decrypting)
said = tpm("A parameter that cannot be decrypted is checked later: AUTH_UNAVAILABLE")
said.refused(tpm.event(b"abc", Use(bound, DECRYPT)).but(parameters=b"\0"))
said = tpm("And in a trial session: ATTRIBUTES/s1")
said.refused(tpm.event(b"abc", Use(keyed, DECRYPT)).but(parameters=b"\0"))
said = tpm("And so do parameters, and LOCALITY of PCR 0: AUTH_UNAVAILABLE")
said.refused(tpm.reset(policy).but(parameters=b"\0"), tpm.reset(policy, pcr=0))

tpm.chapter("No session was changed, nor anything else.")
tpm.digest_is("The session for assertions", target, zeros(target))
for session in (policy, bound, lockout, trial, keyed):
    tpm("TPM2_GetRandom with it").random(1, session)
tpm.accepted("ownerAuth", tpm.change_auth(RH_OWNER, b"owner", b"owner"))
tpm.accepted("The others are empty", tpm.secret(target, b"", of=RH_LOCKOUT))
