"""Makes policy_sessions_that_encrypt.tpm. Policy sessions and trial sessions in additional
entries: they authorize nothing there, and their HMAC is compared like that of HMAC sessions. They
can decrypt and encrypt, and keep their assertions.
"""

from tests.common.policy_teller import PolicyTeller
from tests.common.script_caller import KINDS
from tests.common.vocabulary import CC, CONTINUE_SESSION, DECRYPTS, digest, ENCRYPT, ENCRYPTS
from tests.common.vocabulary import flipped, frames, HASHES, RH_ENDORSEMENT, RH_LOCKOUT, RH_OWNER
from tests.common.vocabulary import SE_POLICY, SE_TRIAL, SHA1, Use, wrong_in, zeros

# Commands whose first parameter is not a sized buffer.
PLAIN = (
    (CC.PolicyOR, frames.sized_list(bytes(20), bytes(20))),
    (CC.PolicyGetDigest, b""),
    (CC.PolicyRestart, b""),
    (CC.PolicyCommandCode, bytes(4)),
    (CC.PolicyLocality, b"\1"),
    (CC.PolicyAuthValue, b""),
    (CC.PolicyPassword, b""),
)

tpm = PolicyTeller(__name__, __doc__, tries=True)


def event(**choices):
    return tpm.event(b"event data", b"", Use(session, DECRYPTS, **choices))


def with_attributes(attributes, commands):
    for code, text in commands:
        yield tpm.told(code, session, text, session).but_entry(1, attributes=attributes)


def as_a_further_entry():
    tpm("TPM2_PolicyAuthValue").auth_value_told(session)
    tpm.accepted("TPM2_PCR_Event by a password, and the data is encrypted by it", event())
    said = tpm("TPM2_HierarchyChangeAuth by a password: its key has no authorization value")
    said.change_auth(RH_OWNER, b"another", b"owner", session.decrypting)
    said = tpm("By an HMAC session, whose hmac has its nonce")
    said.change_auth(RH_OWNER, b"owner", hmac, session.decrypting)
    tpm("TPM2_GetRandom, which it encrypts").random(20, session.encrypting)
    tpm("TPM2_GetRandom that it does not encrypt").random(20, hmac, session)
    tpm.digest_is("The digest of the session is unchanged", session)
    tpm("TPM2_PolicyGetDigest, which it encrypts itself").get_digest(session, session.encrypting)
    tpm("And which the HMAC session encrypts").get_digest(session, session, hmac.encrypting)
    right = event()
    tpm.refused(
        "A wrong hmac: by a bit, none, and the attribute taken away: BAD_AUTH/s2",
        wrong_in(right, 2),
        *(right.but_entry(2, **it) for it in (dict(hmac=b""), dict(attributes=CONTINUE_SESSION))),
    )
    tpm.refused("ownerAuth in its key: BAD_AUTH/s2", tpm.with_key(session.key + b"owner", event))
    said = tpm("Parameters that cannot be decrypted: INSUFFICIENT/p1")
    said.prepare(CC.PCR_Event, [16], b"\0\1", b"", session.decrypting)
    tpm.accepted("The right one", right)
    tpm.refused("It is of a nonce that is past: BAD_AUTH/s2", right)
    tpm.digest_is("The digest of the session is unchanged", session)


def of_its_own_policy():
    said = tpm("TPM2_PolicyPCR whose digest it decrypts itself|and its digest is of the plain one")
    said.pcrs(session, [], digest(session.algorithm, b""), [session.decrypting])
    tpm.digest_is("The digest of the session", session)

    def secret(words, *uses, nonce_tpm=None):
        given = session.nonce_tpm if nonce_tpm is None else nonce_tpm
        tpm(words).secret(session, *uses, of=RH_OWNER, nonce_tpm=given)

    case = "TPM2_PolicySecret, of which it decrypts nonceTPM itself: the one of before"
    secret(case, b"owner", session.decrypting)
    secret("And which the HMAC session decrypts, that authorizes", hmac.decrypting, session)
    case = "Decrypted by it; the HMAC session authorizes and encrypts"
    secret(case, hmac.encrypting, session.decrypting)
    case = "It encrypts, after a password, and there is nothing to encrypt"
    secret(case, b"owner", session.encrypting, nonce_tpm=b"")
    tpm.digest_is("The digest of the session", session)
    if session.kind == SE_POLICY:
        case = "Another nonceTPM, decrypted: NONCE/p1"
        secret(case, b"owner", session.decrypting, nonce_tpm=flipped(session.nonce_tpm))
    tpm.refused(
        "encrypt, but no sized buffer is answered: TPM2_PolicyPCR and TPM2_PolicyRestart: "
        "ATTRIBUTES/s1",
        tpm.pcrs(session, [], b"", [session.encrypting]),
        tpm.restart(session, session.encrypting),
    )
    tpm.refused(
        "decrypt, but the first parameter is no sized buffer: TPM2_PolicyOR, "
        "TPM2_PolicyGetDigest, TPM2_PolicyRestart, TPM2_PolicyCommandCode, "
        "TPM2_PolicyLocality, TPM2_PolicyAuthValue and TPM2_PolicyPassword: ATTRIBUTES/s1",
        *with_attributes(DECRYPTS, PLAIN),
    )
    tpm.refused(
        "encrypt on the others: TPM2_PolicyOR, TPM2_PolicyCommandCode, TPM2_PolicyLocality, "
        "TPM2_PolicyAuthValue and TPM2_PolicyPassword: ATTRIBUTES/s1",
        *with_attributes(ENCRYPTS, PLAIN[:1] + PLAIN[3:]),
    )
    tpm("It encrypts, and ends").random(20, Use(session, ENCRYPT))


def secret(*uses):
    return tpm.secret(first, third, *uses, of=RH_OWNER, nonce_tpm=first.nonce_tpm)


tpm.accepted('ownerAuth is "owner"', tpm.change_auth(RH_OWNER, b"owner", b""))
hmac = tpm.start("An HMAC session, bound to TPM_RH_OWNER, with AES", RH_OWNER, aes=True)
for algorithm, hash_name in HASHES:
    for kind, name in KINDS:
        tpm.chapter(f"A {name} session of {hash_name}, bound to TPM_RH_OWNER.")
        said = tpm("The session is started")
        session = said.start(RH_OWNER, algorithm=algorithm, aes=True, kind=kind, size=20)
        as_a_further_entry()
        of_its_own_policy()

tpm.chapter("Without a key: the hmac may be left out.")
for algorithm, hash_name in HASHES:
    for kind, name in KINDS:
        said = tpm(f"A {name} session of {hash_name} that is bound to nothing")
        session = said.start(algorithm=algorithm, aes=True, kind=kind)
        tpm.accepted("After a password, with no hmac|and none is answered", event())
        tpm.accepted("With an hmac by the empty key", event(shows_empty_key=True))
        shown = event(shows_empty_key=True)
        said = tpm("With a wrong one, and with a byte: BAD_AUTH/s2")
        said.refused(wrong_in(shown, 2), shown.but_entry(2, hmac=b"\0"))
        tpm.accepted("The right one", shown)
        tpm("TPM2_GetRandom, which it encrypts without a key").random(8, session.encrypting)
        tpm("TPM2_PolicyGetDigest, which it encrypts").get_digest(session, session.encrypting)
        tpm.digest_is("The digest of the session is zeros", session, zeros(session))
        tpm("The session is flushed").flush(session)

tpm.chapter("Without AES.")
plain = tpm.policy("A policy session", bind=RH_OWNER)
decrypting = tpm.pcrs(plain, [], b"", [plain.decrypting])
said = tpm("decrypt and encrypt: SYMMETRIC/s1")
said.refused(decrypting, tpm.get_digest(plain, plain.encrypting))
tpm("After a password: SYMMETRIC/s2").event(b"a", b"", plain.decrypting)

tpm.chapter("Started with other sessions, and used with others.")
first = tpm.policy("A policy session, with AES", bind=RH_OWNER, aes=True)
said = tpm("TPM2_StartAuthSession of another, by which it is encrypted in both directions")
second = said.start(RH_ENDORSEMENT, kind=SE_TRIAL, aes=True, uses=[Use(first, DECRYPTS | ENCRYPT)])
said = tpm("Of an HMAC session: the trial session decrypts and the policy session encrypts")
third = said.start(RH_OWNER, aes=True, uses=[second.decrypting, first.encrypting])
tpm("Three with a password would be four; two").event(b"a", b"", first, second)
tpm(
    "TPM2_HierarchyChangeAuth by the HMAC session, with both: the first hmac has the nonce of the "
    "one that decrypts"
).change_auth(RH_OWNER, b"owner", third, second, first.decrypting)
changing = tpm.change_auth, RH_OWNER, b"owner", third, second, first.decrypting
tpm.refused("If it is left out: BAD_AUTH/s1", tpm.with_nonces_of([], *changing))
tpm.accepted(
    "TPM2_PolicySecret in the policy session, which encrypts, and the trial session decrypts: the "
    "first hmac has the nonces of both, in this order",
    secret(first.encrypting, second.decrypting),
)
tpm.accepted("The other way round", secret(first.decrypting, second.encrypting))
tpm.accepted("One does both", secret(second, Use(first, DECRYPTS | ENCRYPT)))
turned = tpm.with_nonces_of([first, second], secret, first.encrypting, second.decrypting)
tpm.refused("In the other order: BAD_AUTH/s1", turned)
tpm.restarts(first)
for it, kind in ((first, SE_POLICY), (second, SE_TRIAL)):
    assert it.kind == kind
    tpm.digest_is("The digest of the session is zeros", it, zeros(it))

tpm.chapter("Bound to TPM_RH_LOCKOUT, a wrong hmac is a try at its value.")
tpm.script.wait_each_time()
locked = tpm.policy("A policy session", bind=RH_LOCKOUT)
trial = tpm.trial("A trial session, of SHA-1", bind=RH_LOCKOUT, algorithm=SHA1)
for it in (locked, trial):
    tpm.refused("After a password: AUTH_FAIL/s2", wrong_in(tpm.event(b"a", b"", it), 2))
    tpm.refused("As the first entry: AUTH_FAIL/s1", wrong_in(tpm.random(1, it), 1))
    tpm("A right one").random(1, it)
said = tpm("A session that is bound to TPM_RH_OWNER, in addition: BAD_AUTH/s3")
said.refused(wrong_in(tpm.random(1, locked, trial, first), 3))
