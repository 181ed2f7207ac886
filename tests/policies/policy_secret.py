"""Makes policy_secret.tpm. TPM2_PolicySecret: the policy requires a user who knows the
authorization value of an entity, and proves it now. Its parameters are nonceTPM, cpHashA, policyRef
and expiration. All entries here are the empty password.
"""

from tests.common.policy_teller import ENTITIES, PolicyTeller
from tests.common.vocabulary import digest_bytes, flipped, frames, is_trial, name_of, number, policy
from tests.common.vocabulary import RH_OWNER, SHA1, SHA256, sized, Use, wrong_in, zeros

EMPTY = sized(b"")

tpm = PolicyTeller(__name__, __doc__)


def accepted(what, **parameters):
    tpm.accepted(what, tpm.secret(session, **parameters))


def refused(words, *choices):
    """Sends TPM2_PolicySecret with each of these sets of parameters. Each command must be refused."""
    tpm.refused(words, *(tpm.secret(session, **it) for it in choices))


def refused_but_in_trial(words, *choices):
    if not is_trial(session):
        refused(words, *choices)


def not_looked_at(what, outcome, **others):
    """Sends wrong values of a parameter. They must be refused, except in a trial session."""
    ((name, values),) = others.items()
    if not is_trial(session):
        refused(f"{what}: {outcome}", *({name: it} for it in values))
        return
    for it in values:
        words = f"{what}, which a trial session does not look at" if it is values[0] else ""
        accepted(words, **{name: it})


def raw(words, *texts):
    tpm.refused(words, *(tpm.secret(session).but(parameters=it) for it in texts))


for session in tpm.each_session():
    for handle, name in ENTITIES.items():
        tpm.restarts(session)
        accepted(f"By {name}", of=handle)
        wanted = policy.after_secret(session.algorithm, zeros(session), name_of(handle), b"")
        tpm.digest_is("The digest of the session", session, wanted)
    tpm.restarts(session)
    for policy_ref, words in (
        (b"", "No policyRef, which is hashed all the same"),
        (b"r", "A policyRef of one byte"),
        (bytes(20), "A policyRef of 20 zeros"),
        (bytes(range(32)), "A policyRef of 32 bytes"),
        (b"", "None again"),
    ):
        accepted(words, policy_ref=policy_ref)
        tpm.digest_is("The digest of the session", session)

    tpm.restarts(session)
    right = session.nonce_tpm
    accepted("nonceTPM, the right one", nonce_tpm=right)
    tpm.digest_is("The digest does not depend on this parameter", session)
    accepted("And once more, as it is the session's yet", nonce_tpm=right)
    wrong = (flipped(right), flipped(right, 0), right[:-1], right[:1], (right + b"\0")[:32], b"\0")
    wrong = [it for it in wrong if it != right]
    not_looked_at("Wrong ones: another bit, fewer bytes, more, one", "NONCE/p1", nonce_tpm=wrong)
    tpm.digest_is("The digest of the session", session)
    tpm("The session has a new nonce, by TPM2_GetRandom").random(1, session)
    refused_but_in_trial("The one before: NONCE/p1", dict(nonce_tpm=right))
    accepted("The new one", nonce_tpm=session.nonce_tpm)
    tpm.digest_is("The digest of the session", session)

    size = digest_bytes(session.algorithm)
    one, other = bytes([1]) * size, bytes(size)
    tpm.restarts(session)
    case = "cpHashA of another size than the session's digests, also in a trial session"
    sizes = [it for it in (1, 19, 21, 31) if it != size] + [52 - size]
    refused(f"{case}: SIZE/p2", *(dict(cp_hash=bytes(it)) for it in sizes))
    accepted("A cpHashA with the size of a digest", cp_hash=one)
    tpm.digest_is("It is not in the digest", session)
    accepted("The same cpHashA again", cp_hash=one)
    accepted("None, which leaves it")
    others = flipped(one), flipped(one, 0), other
    not_looked_at("Another cpHashA, with one other bit, and one of zeros", "CPHASH", cp_hash=others)
    accepted("The first", cp_hash=one)
    tpm.digest_is("The digest of the session", session)
    tpm.restarts(session)
    refused("One in a command that is refused: VALUE/p4", dict(cp_hash=one, expiration=1))
    refused_but_in_trial("And by its nonceTPM: NONCE/p1", dict(cp_hash=one, nonce_tpm=b"x"))
    tpm.digest_is("The digest is zeros", session, zeros(session))
    accepted("Zeros as the first one", cp_hash=other)
    refused_but_in_trial("Another: CPHASH", dict(cp_hash=one))

    tpm.restarts(session)
    expirations = 1, 0x100, 0x0100_0000, 0xFFFF_FFFF, 0x8000_0000
    case = "expiration that is not 0, of either sign: VALUE/p4"
    refused(case, *(dict(expiration=it) for it in expirations))
    for place, name in enumerate(("nonceTPM", "cpHashA", "policyRef"), 1):
        front, behind = (place - 1) * EMPTY, (3 - place) * EMPTY + bytes(4)
        case = f"{name} that is cut: before its size, within it, and within its bytes"
        cut = b"", b"\0", b"\0\1", b"\0\x20" + bytes(31)
        raw(f"{case}: INSUFFICIENT/p{place}", *(front + it for it in cut))
        long = sized(bytes(33)) + behind, number(33, 2), b"\xff\xff"
        raw(
            f"A buffer of 33 bytes, whole or truncated: SIZE/p{place}", *(front + it for it in long)
        )
    raw("expiration that is cut: INSUFFICIENT/p4", *(3 * EMPTY + bytes(it) for it in (0, 1, 3)))
    whole = frames.policy_secret(), frames.policy_secret(expiration=1)
    raw("A byte after them, even if expiration is 1: SIZE", *(it + b"\0" for it in whole))
    tpm.digest_is("The digest is zeros", session, zeros(session))

tpm.chapter("A nonceTPM of 32 bytes, of a session of SHA-256.")
session = tpm.policy("The session", size=32)
accepted("Its nonce", nonce_tpm=session.nonce_tpm)
refused("Half of it: NONCE/p1", dict(nonce_tpm=session.nonce_tpm[:16]))
other = tpm.policy("Another session", size=32)
refused("The other's: NONCE/p1", dict(nonce_tpm=other.nonce_tpm))
tpm.refused("The other way round: NONCE/p1", tpm.secret(other, nonce_tpm=session.nonce_tpm))
said = tpm("nonceTPM, cpHashA and policyRef of 32 bytes, followed by two entries of 32 bytes each")
largest = dict(nonce_tpm=session.nonce_tpm, cp_hash=bytes(range(32)), policy_ref=bytes(32))
said.secret(session, b"", session, Use(other, shows_empty_key=True), **largest)
tpm.digest_is("The digest of the session", session)

tpm.chapter("On the policy session that is named as a further entry too.")
session = tpm.policy("The session, bound to TPM_RH_OWNER", bind=RH_OWNER, algorithm=SHA256)
old = session.nonce_tpm
said = tpm("With its old nonceTPM, as it has the new one after the command")
said.secret(session, b"", session, nonce_tpm=old)
tpm("The same again: NONCE/p1").secret(session, b"", session, nonce_tpm=old)
tpm("With the new one").secret(session, b"", session, nonce_tpm=session.nonce_tpm)
tpm.digest_is("The digest of the session", session)
tpm.refused("Its hmac is wrong: BAD_AUTH/s2", wrong_in(tpm.secret(session, b"", session), 2))
tpm("The session ends with the command").secret(session, b"", Use(session, 0))
tpm("The session no longer exists: REFERENCE_H0").get_digest(session)
unbound = tpm.policy("A session that is bound to nothing", algorithm=SHA1)
tpm("It has neither key nor hmac").secret(unbound, b"", unbound)
tpm("With an hmac by the empty key").secret(unbound, b"", Use(unbound, shows_empty_key=True))
tpm.digest_is("The digest of the session", unbound)
