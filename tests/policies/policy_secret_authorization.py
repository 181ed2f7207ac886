"""Makes policy_secret_authorization.tpm. The authorization value of the first handle authorizes
TPM2_PolicySecret, with a password or an HMAC session, as for any other command. The policy session
needs no authorization.
"""

from tests.common.policy_teller import HIERARCHIES, PolicyTeller
from tests.common.vocabulary import HASHES, RH_LOCKOUT, RH_OWNER, SHA1, SHA256, Use, wrong_in

# The authorization values: "owner" for TPM_RH_OWNER, and so on.
VALUES = {it: name.rpartition("_")[2].lower().encode() for it, name in HIERARCHIES.items()}

tpm = PolicyTeller(__name__, __doc__, tries=True)

tpm.script.wait_each_time()
for handle, value in VALUES.items():
    said = tpm(f'The value of {HIERARCHIES[handle]} is "{value.decode()}"')
    said.accepted(tpm.change_auth(handle, value, b""))
target = tpm.policy("The policy session, with AES", aes=True)
trial = tpm.trial("And a trial session, of SHA-1", algorithm=SHA1)
unbound = tpm.start("An HMAC session that is bound to nothing")


def accepted(what, session, *uses, of, **parameters):
    tpm.accepted(what, tpm.secret(session, *uses, of=of, **parameters))


def digests():
    for session in (target, trial):
        tpm.digest_is("The digest", session)


for handle, value in VALUES.items():
    tpm.chapter(f"{HIERARCHIES[handle]}.")
    code = "AUTH_FAIL/s1" if handle == RH_LOCKOUT else "BAD_AUTH/s1"
    bound = tpm.start("An HMAC session that is bound to it", handle, aes=True)
    for session in (target, trial):
        accepted("The right password", session, value, of=handle)
        accepted("And with zeros after it", session, value + b"\0\0", of=handle)
        case = f"Wrong passwords: none, fewer bytes, more, and that of another: {code}"
        wrong = b"", value[:-1], value + b"x", b"another"
        tpm.refused(case, *(tpm.secret(session, it, of=handle) for it in wrong))
        accepted("By the session that is bound to it", session, bound, of=handle)
        tpm.refused(f"A wrong hmac of it: {code}", wrong_in(tpm.secret(session, bound, of=handle)))
        accepted("By the session that is bound to nothing", session, unbound, of=handle)
        right = tpm.secret(session, unbound, of=handle)
        none = tpm.secret(session, unbound, of=handle).but_entry(1, hmac=b"")
        tpm.refused(f"A wrong hmac of it, and none: {code}", wrong_in(right), none)
    right = tpm.secret(target, bound, of=handle)
    said = tpm(f"The right hmac, and another policy session than it is of: {code}")
    said.refused(right.but(handles=[handle, trial.handle]))
    said = tpm(f"Another policyRef than it is of: {code}")
    said.refused(right.but(parameters=tpm.secret(target, policy_ref=b"r").parameters))
    case, given = "As the first entry it decrypts nonceTPM", dict(nonce_tpm=target.nonce_tpm)
    accepted(case, target, Use(bound, 0x21), of=handle, **given)
    case = "It ends, and decrypts and encrypts, though there is nothing to encrypt"
    accepted(case, target, Use(bound, 0x60), of=handle, **given, policy_ref=b"reference")
    digests()

tpm.chapter("A PCR, whose value is empty.")
for algorithm, hash_name in HASHES:
    bound = tpm.start(f"An HMAC session of {hash_name}, bound to PCR 7", 7, algorithm=algorithm)
    accepted("By the empty password", target, b"", of=7)
    accepted("By the session that is bound to it", target, bound, of=7)
    tpm.refused("A wrong hmac of it: BAD_AUTH/s1", wrong_in(tpm.secret(target, bound, of=7)))
    accepted("By it on another, PCR 8", target, bound, of=8)
accepted("By the session that is bound to nothing, with no hmac", trial, unbound, of=7)
tpm.refused("A password: BAD_AUTH/s1", tpm.secret(target, b"x", of=7))
digests()

tpm.chapter("With further entries.")
bound = tpm.start("An HMAC session that is bound to TPM_RH_LOCKOUT", RH_LOCKOUT, algorithm=SHA1)
accepted("After a password", target, b"owner", bound, of=RH_OWNER)
case = "After a session, and before the policy session"
accepted(case, target, unbound, bound, target, of=RH_OWNER)
case = "A wrong hmac after a password, of a session that is bound to TPM_RH_LOCKOUT: AUTH_FAIL/s2"
tpm.refused(case, wrong_in(tpm.secret(target, b"owner", bound, of=RH_OWNER), 2))
said = tpm("A wrong one after it: BAD_AUTH/s3")
said.refused(wrong_in(tpm.secret(target, b"owner", bound, target, of=RH_OWNER), 3))
locked = tpm.policy("A policy session that is bound to TPM_RH_LOCKOUT", bind=RH_LOCKOUT)
said = tpm("A wrong hmac of it, as a further entry: AUTH_FAIL/s2")
said.refused(wrong_in(tpm.secret(target, b"owner", locked, of=RH_OWNER), 2))
accepted("A right one", target, b"owner", locked, of=RH_OWNER)
owned = tpm.policy("A session that is bound to TPM_RH_OWNER", bind=RH_OWNER, algorithm=SHA256)
said = tpm("A wrong hmac of it, with a first entry of TPM_RH_LOCKOUT: BAD_AUTH/s2")
said.refused(wrong_in(tpm.secret(target, b"lockout", owned, of=RH_LOCKOUT), 2))
case = "A right one, on TPM_RH_OWNER: it has the session's key alone, and no authorization value"
accepted(case, target, b"owner", owned, of=RH_OWNER)
digests()
