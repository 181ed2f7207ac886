"""Makes object_policies.tpm. A policy session authorizes an object whose authPolicy is its digest.
Its assertions are checked against the command and the device, and hold for one command.
"""

from tests.common.steps import AFTER_AUTH_VALUE, in_plain, Steps, with_value
from tests.common.vocabulary import ALG_NULL, CC, CONTINUE_SESSION, DECRYPT, digest, ENCRYPT, HASHES
from tests.common.vocabulary import HERE, hmac_key, name_of, ObjectAttribute, others_in, policy
from tests.common.vocabulary import RH_ENDORSEMENT, RH_OWNER, sealed, selection, SHA1, SHA256
from tests.common.vocabulary import storage_key, Use, zeros

NO_DA, USER = ObjectAttribute.NO_DA, ObjectAttribute.USER_WITH_AUTH
PCR_16 = [(SHA256, [16])]
SECRET, PIN = b"secret", b"pin"
ENCRYPTING = CONTINUE_SESSION | ENCRYPT

tpm = Steps(__name__, __doc__, tries=True)
parent = tpm.owned("A storage key", storage_key())


def sealed_by(what, auth_policy, algorithm=SHA256, attributes=HERE | NO_DA, user_auth=PIN):
    """Creates an object that only this policy authorizes."""
    template = sealed(algorithm, attributes, auth_policy=auth_policy)
    return tpm.below(f"{what}: TPM2_Create", parent, template, user_auth=user_auth, data=SECRET)


def start_again(session):
    """Checks that the session no longer has assertions, because each assertion counts for only one
    command.
    """
    tpm.digest_is("TPM2_PolicyGetDigest: zeros", session, zeros(session))


def demands(algorithm, handle):
    """Tests the demands of policies with an unbound session, on an object with the authorization
    value "pin".
    """
    session = tpm.policy("A policy session", algorithm=algorithm)
    tpm("Nothing is asserted: POLICY_FAIL/s1").unsealing(handle, session)

    tpm.chapter("TPM2_PolicyPassword: the hmac is the value itself, and is answered empty.")
    by_password = tpm.by_password(session)
    right = tpm.unsealing(handle, by_password)
    said = tpm("An empty hmac, as the value is not empty: BAD_AUTH/s1")
    said.refused(right.but_entry(1, hmac=b""))
    said = tpm("Another value: BAD_AUTH/s1")
    said.refused(*(right.but_entry(1, hmac=it) for it in (b"pi", b"pin1", b"\0pin", bytes(32))))
    tpm("An hmac with the value in its key: BAD_AUTH/s1").unsealing(handle, with_value(session))
    tpm.unseal("The value, in plain, with continueSession", handle, SECRET, by_password)
    start_again(session)
    tpm("Once more: POLICY_FAIL/s1").unsealing(handle, by_password)
    tpm("TPM2_PolicyPassword again").password_told(session)
    padded = tpm.unsealing(handle, by_password).but_entry(1, hmac=PIN + bytes(29))
    tpm.accepted("The value, and zeros after it", padded)

    tpm.chapter("TPM2_PolicyAuthValue: the value is in the key of the hmac and of the answer's.")
    by_value = tpm.by_value(session)
    tpm("The value in plain: BAD_AUTH/s1").unsealing(handle, by_password)
    tpm("An empty hmac: BAD_AUTH/s1").unsealing(handle, session)
    tpm("An hmac of an empty key: BAD_AUTH/s1").unsealing(
        handle, Use(session, shows_empty_key=True)
    )
    tpm.unseal("With continueSession", handle, SECRET, by_value)
    start_again(session)
    tpm("Once more: POLICY_FAIL/s1").unsealing(handle, by_value)

    later_counts(algorithm, session, by_value, by_password)

    tpm.chapter("Without continueSession the session ends.")
    tpm.unseal("By the password", handle, SECRET, tpm.by_password(session, 0))
    tpm("The session no longer exists: REFERENCE_H0").get_digest(session)


def later_counts(algorithm, session, by_value, by_password):
    tpm.chapter("Of the two the later one counts.")
    twice = policy.after_auth_value(algorithm, AFTER_AUTH_VALUE[algorithm])
    for first, last, use, other in (
        (tpm.by_value, tpm.by_password, by_password, by_value),
        (tpm.by_password, tpm.by_value, by_value, by_password),
    ):
        double = sealed_by("An object with both in its policy", twice, algorithm)
        first(session)
        last(session)
        tpm("The entry that the first assertion demands: BAD_AUTH/s1").unsealing(double, other)
        tpm.unseal("The entry that the second assertion demands", double, SECRET, use)
        tpm.flush_objects("The object is flushed", double)


def demands_of_bound(algorithm, handle):
    tpm.chapter("A session that is bound to the object.")
    session = tpm.policy("The object is bind", bind=handle, algorithm=algorithm, aes=True)
    tpm("TPM2_PolicyAuthValue: it is in the key, bound or not").auth_value_told(session)
    tpm("An hmac without the value in its key: BAD_AUTH/s1").unsealing(handle, session)
    tpm.unseal("With it", handle, SECRET, with_value(session))
    tpm.chapter("As a further entry it authorizes nothing, and has an hmac whatever is asked for.")
    tpm("TPM2_PolicyPassword").password_told(session)
    beside = tpm.random(2, session)
    tpm.refused("The password there: BAD_AUTH/s1", beside.but_entry(1, hmac=PIN))
    tpm.accepted("The hmac, and it keeps its assertions", beside)
    tpm.digest_is("TPM2_PolicyGetDigest", session, AFTER_AUTH_VALUE[algorithm])
    hidden = in_plain(session, ENCRYPTING)
    tpm.unseal("TPM2_Unseal by the password, with outData encrypted", handle, SECRET, hidden)
    hidden = tpm.by_value(session, ENCRYPTING)
    tpm.unseal("By the hmac, with outData encrypted", handle, SECRET, hidden)
    tpm.unseal("By the password", handle, SECRET, tpm.by_password(session, 0))
    tpm.flush_objects("The object is flushed", handle)


def demands_of_no_value(algorithm):
    tpm.chapter("An object whose value is empty.")
    handle = sealed_by("Sealed data", AFTER_AUTH_VALUE[algorithm], algorithm, user_auth=b"")
    session = tpm.policy("A policy session", algorithm=algorithm)
    for told in (tpm.by_password, tpm.by_value):
        told(session)
        tpm.unseal("With an empty hmac, which is answered by one", handle, SECRET, session)
    tpm("TPM2_PolicyAuthValue").auth_value_told(session)
    shown = with_value(session, shows_empty_key=True)
    tpm.unseal("With the hmac of an empty key, and it is answered by one", handle, SECRET, shown)
    by_password = tpm.by_password(session)
    tpm("That, although the policy demands the password: BAD_AUTH/s1").unsealing(handle, shown)
    three_zeros = tpm.unsealing(handle, by_password).but_entry(1, hmac=bytes(3))
    tpm.accepted("Three zeros, as the password", three_zeros)
    tpm("The session is flushed").flush(session)
    tpm.flush_objects("The object is flushed", handle)


for algorithm, hash_name in reversed(HASHES):
    tpm.chapter(
        f"TPM2_PolicyPassword and TPM2_PolicyAuthValue, which make one digest, of {hash_name}."
    )
    handle = sealed_by('Sealed data whose value is "pin"', AFTER_AUTH_VALUE[algorithm], algorithm)
    demands(algorithm, handle)
    demands_of_bound(algorithm, handle)
    demands_of_no_value(algorithm)

tpm.chapter("A policy that asks for no value: the key of the hmac is the session's alone.")
AFTER_CODE = policy.after_command_code(SHA256, bytes(32), CC.Unseal)
handle = sealed_by("An object for TPM2_Unseal alone", AFTER_CODE)
session = tpm.policy("A session that is bound to nothing")
tpm("TPM2_PolicyCommandCode").command_code(session, CC.Unseal)
tpm("By the value: BAD_AUTH/s1").unsealing(handle, in_plain(session))
tpm("By an hmac with the value in its key: BAD_AUTH/s1").unsealing(handle, with_value(session))
tpm.unseal("By an empty hmac, as the key is empty", handle, SECRET, session)
tpm("TPM2_PolicyCommandCode").command_code(session, CC.Unseal)
tpm.unseal("By one of the empty key", handle, SECRET, Use(session, shows_empty_key=True))
case = "A session that is bound to TPM_RH_ENDORSEMENT, with AES"
bound = tpm.policy(case, bind=RH_ENDORSEMENT, aes=True)
tpm("TPM2_PolicyCommandCode").command_code(bound, CC.Unseal)
tpm.refused("An empty hmac: BAD_AUTH/s1", tpm.unsealing(handle, bound).but_entry(1, hmac=b""))
said = tpm("The hmac by the session's key; outData is encrypted, with the value in that key")
said.unseal(handle, SECRET, bound.encrypting)
tpm("TPM2_PolicyCommandCode").command_code(bound, CC.Unseal)
tpm.unseal("With another session", handle, SECRET, bound, session)
tpm("TPM2_PolicyCommandCode").command_code(bound, CC.Unseal)
tpm.unseal("The other session authorizes nothing, and keeps its assertions", handle, SECRET, bound)
tpm.flush_objects("The object is flushed", handle)

tpm.chapter("Each condition of a use in its order: all of them fail, and one is put right.")


def tell_all(session, cp_hash, code=CC.Unseal, localities=1):
    """Makes an assertion of each kind, ending with TPM2_PolicyLocality."""
    tpm("TPM2_PolicyPCR").pcrs(session, PCR_16)
    tpm("TPM2_PolicyCommandCode").command_code(session, code)
    tpm("TPM2_PolicySecret with a cpHash").secret(session, cp_hash=cp_hash)
    tpm("TPM2_PolicyLocality").locality(session, localities)


def tell_anew(session, *told):
    tpm.restarts(session)
    tell_all(session, *told)


PCR_16_DIGEST = digest(SHA256, bytes(32))
AFTER_PCR_16 = policy.after_pcr(SHA256, bytes(32), selection(*PCR_16), PCR_16_DIGEST)
right = policy.after_command_code(SHA256, AFTER_PCR_16, CC.Unseal)
right = policy.after_secret(SHA256, right, name_of(RH_ENDORSEMENT), b"")
right = policy.after_locality(SHA256, right, 1)
handle = sealed_by("An object with a policy of all of it", right)
without = tpm.owned("An object that has no policy", sealed(), user_auth=PIN, data=SECRET)
right_hash, wrong_hash = tpm.cp_hash(tpm.unsealing(handle)), bytes([7]) * 32


def wrong(handle, session):
    """Returns a TPM2_Unseal that also has a wrong HMAC. The HMAC is compared last."""
    return others_in(tpm.unsealing(handle, session), 1)


trial = tpm.trial("A trial session")
tell_all(trial, wrong_hash, CC.Load, 2)
tpm("PCR 16 is reset").reset(b"")
said = tpm("A trial session, for either object: ATTRIBUTES/s1")
said.refused(wrong(handle, trial), wrong(without, trial))
tpm("The session is flushed").flush(trial)
session = tpm.policy("A policy session, with SHA-256")
tell_all(session, wrong_hash, CC.Load, 2)
tpm("PCR 16 is reset").reset(b"")
tpm.refused("An object that has no policy: AUTH_UNAVAILABLE", wrong(without, session))
tpm.refused("The PCRs have changed: PCR_CHANGED", wrong(handle, session))
tell_anew(session, wrong_hash, CC.Load, 2)
tpm.refused("Another command code: POLICY_CC/s1", wrong(handle, session))
tell_anew(session, wrong_hash, CC.Unseal, 2)
tpm.refused("Another cpHash: POLICY_FAIL/s1", wrong(handle, session))
tell_anew(session, right_hash, CC.Unseal, 2)
tpm.refused("Another locality: LOCALITY", wrong(handle, session))
tpm.locality_is(1)
tpm.refused("From that locality: another digest: POLICY_FAIL/s1", wrong(handle, session))
tpm.locality_is(0)
tell_anew(session, right_hash)
tpm.refused("A wrong hmac: BAD_AUTH/s1", wrong(handle, session))
tpm.unseal("With nothing wrong", handle, SECRET, session)

tpm.chapter("Each of them alone.")
tell_all(session, right_hash)
tpm("PCR 16 is reset").reset(b"")
tpm("The PCRs have changed: PCR_CHANGED").unsealing(handle, session)
tell_anew(session, wrong_hash)
tpm("The cpHash is of another command: POLICY_FAIL/s1").unsealing(handle, session)
tell_anew(session, tpm.cp_hash(tpm.unsealing(without)))
tpm("TPM2_Unseal of another object: POLICY_FAIL/s1").unsealing(handle, session)
tell_anew(session, right_hash)
for locality in (1, 2, 3, 4):
    tpm.locality_is(locality)
    tpm("From another locality: LOCALITY").unsealing(handle, session)
tpm.locality_is(0)
tpm.unseal("From locality 0", handle, SECRET, session)
tpm("The same assertions in another order: first the code").command_code(session, CC.Unseal)
tpm("Then the assertion about the PCRs").pcrs(session, PCR_16)
tpm("TPM2_PolicySecret").secret(session, cp_hash=right_hash)
tpm("TPM2_PolicyLocality").locality(session, 1)
tpm("The session has another digest: POLICY_FAIL/s1").unsealing(handle, session)

tpm.chapter("The hash of the session is not nameAlg.")
sha1 = tpm.policy("A session with SHA-1", algorithm=SHA1)
tpm("TPM2_PolicyPassword").password_told(sha1)
thirty_two = sealed_by("An object with nameAlg SHA-256", AFTER_AUTH_VALUE[SHA256])
twenty = sealed_by("An object with nameAlg SHA-1", AFTER_AUTH_VALUE[SHA1], SHA1)
tpm("The first: POLICY_FAIL/s1").unsealing(thirty_two, in_plain(sha1))
tpm.unseal("The second", twenty, SECRET, in_plain(sha1))
tpm.restarts(session)
tpm("TPM2_PolicyPassword in the session with SHA-256").password_told(session)
tpm("The second: POLICY_FAIL/s1").unsealing(twenty, in_plain(session))
tpm.unseal("The first", thirty_two, SECRET, in_plain(session))
tpm.flush_objects("All are flushed", handle, without, thirty_two, twenty)
tpm("A session, too").flush(sha1)

tpm.chapter("TPM2_PolicyPCR, a change, another assertion, and then the use.")
after = policy.after_auth_value(SHA256, AFTER_PCR_16)
handle = sealed_by("An object with PCR 16 and TPM2_PolicyPassword in its policy", after)
by_password = in_plain(session)
tpm("TPM2_PolicyPCR").pcrs(session, PCR_16)
tpm("PCR 16 is reset, to what it was").reset(b"")
tpm("TPM2_PolicyPassword").password_told(session)
tpm.digest_is("The digest is the right one", session, after)
tpm("TPM2_Unseal: PCR_CHANGED").unsealing(handle, by_password)
tpm.restarts(session)
tpm("TPM2_PolicyPCR").pcrs(session, PCR_16)
tpm("TPM2_PolicyPassword").password_told(session)
tpm.unseal("Without a change between them", handle, SECRET, by_password)
tpm.flush_objects("The object is flushed", handle)

tpm.chapter("userWithAuth: what its absence and its presence mean.")
FOR_HMAC = policy.after_command_code(SHA256, bytes(32), CC.HMAC)
for what, attributes, by_value in (
    ("Without userWithAuth", NO_DA, False),
    ("With userWithAuth", NO_DA | USER, True),
):
    said = tpm(f"{what}: an HMAC key with a policy")
    template = hmac_key(attributes=HERE | attributes, auth_policy=FOR_HMAC)
    handle = said.owned(template, user_auth=PIN, data=b"key")
    plain = tpm.start("An HMAC session")
    bound = tpm.start("A session that is bound to it", bind=handle)
    for words, use in (("By the password", PIN), ("By the one", plain), ("By the other", bound)):
        prepared = tpm.hmac(handle, b"text", ALG_NULL, use)
        if by_value:
            tpm.accepted(words, prepared)
        else:
            tpm.refused(f"{words}: AUTH_UNAVAILABLE", prepared)
    tpm("TPM2_PolicyCommandCode of TPM2_HMAC").command_code(session, CC.HMAC)
    tpm("TPM2_Unseal by this policy: POLICY_CC/s1").unsealing(handle, session)
    tpm("TPM2_HMAC by this policy").hmac(handle, b"text", ALG_NULL, session)
    tpm("Once more: POLICY_FAIL/s1").hmac(handle, b"text", ALG_NULL, session)
    tpm.flushes("An HMAC session is flushed", plain, bound)
    tpm.flush_objects("The object is flushed", handle)

tpm.chapter("A parent with a policy, by which its children are created and loaded.")
said = tpm("A storage key with TPM2_PolicyAuthValue as its policy")
without_user = storage_key().attributes & ~USER
for_policy = storage_key(attributes=without_user, auth_policy=AFTER_AUTH_VALUE[SHA256])
guarded = said.owned(for_policy, user_auth=b"parent")
tpm("TPM2_Create by the password: AUTH_UNAVAILABLE").child(guarded, sealed(), data=b"x")
said = tpm("TPM2_Create by the policy")
made = said.create(guarded, sealed(), tpm.by_value(session), data=SECRET)
aes = tpm.policy("A policy session with AES", aes=True)
hidden = tpm.by_value(aes, DECRYPT | ENCRYPT)
said = tpm("TPM2_Load by the policy, with inPrivate and name encrypted")
child = said.load(guarded, made, hidden)
tpm.unseal("TPM2_Unseal", child, SECRET)
tpm.flush_objects("Both objects are flushed", child, guarded)

tpm.chapter("noDA: whether a wrong entry counts as a try.")
TRIES = (("With noDA", NO_DA, "BAD_AUTH/s1"), ("Without noDA", 0, "AUTH_FAIL/s1"))
for what, attributes, outcome in TRIES:
    handle = sealed_by(what, AFTER_AUTH_VALUE[SHA256], attributes=HERE | USER | attributes)
    tpm(f"A wrong password: {outcome}").unsealing(handle, b"nip")
    plain = tpm.start("An HMAC session")
    said = tpm(f"A wrong hmac: {outcome}")
    said.refused(tpm.unsealing(handle, plain).but_entry(1, hmac=bytes(32)))
    by_password = tpm.by_password(session)
    said = tpm(f"A wrong password, by the policy: {outcome}")
    said.refused(tpm.unsealing(handle, by_password).but_entry(1, hmac=b"nip"))
    tpm.restarts(session)
    by_value = tpm.by_value(session)
    said = tpm(f"A wrong hmac, by the policy: {outcome}")
    said.refused(tpm.unsealing(handle, by_value).but_entry(1, hmac=bytes(32)))
    tpm.unseal("The right one", handle, SECRET, with_value(session))
    by_password = tpm.by_password(session)
    tpm("TPM2_PolicyCommandCode").command_code(session, CC.Unseal)
    said = tpm("A refusal before the comparison is no failed try: POLICY_FAIL/s1")
    said.refused(tpm.unsealing(handle, by_password).but_entry(1, hmac=b"nip"))
    tpm.restarts(session)
    tpm("The HMAC session is flushed").flush(plain)
    tpm.flush_objects("The object is flushed", handle)
for what, attributes, outcome in TRIES:
    case = f"{what}, and a policy without a demand"
    handle = sealed_by(case, AFTER_CODE, attributes=HERE | attributes)
    bound = tpm.policy("A policy session that is bound to it", bind=handle)
    unbound = tpm.policy("A session that is bound to TPM_RH_OWNER", bind=RH_OWNER)
    for words, each, code in (
        ("The first: its key was made of the object's value", bound, outcome),
        ("The second: nothing of it has the value in it", unbound, "BAD_AUTH/s1"),
    ):
        tpm("TPM2_PolicyCommandCode").command_code(each, CC.Unseal)
        tpm.refused(f"{words}: {code}", tpm.unsealing(handle, each).but_entry(1, hmac=bytes(32)))
        tpm.unseal("The right one", handle, SECRET, each)
    tpm.flushes("A session is flushed", bound, unbound)
    tpm.flush_objects("The object is flushed", handle)

tpm.chapter("TPM2_PolicySecret of an object, authorized by the very session that it is for.")
handle = sealed_by("An object with TPM2_PolicyAuthValue as its policy", AFTER_AUTH_VALUE[SHA256])
told = tpm.secret(session, tpm.by_value(session), of=handle)
tpm.accepted("TPM2_PolicySecret, first asserted, and then the session starts again", told)
start_again(session)
other = tpm.policy("Another session")
tpm("TPM2_PolicyAuthValue in the first").auth_value_told(session)
said = tpm("TPM2_PolicySecret to the other, authorized by the first")
said.secret(other, with_value(session), of=handle)
start_again(session)
wanted = policy.after_secret(SHA256, bytes(32), tpm.names[handle], b"")
tpm.digest_is("The digest of the other session depends on the object's Name", other, wanted)
tpm("TPM2_PolicyPassword in the first").password_told(session)
tpm("The session ends with the command that asserts in it").secret(
    session, in_plain(session, 0), of=handle
)
tpm("The session no longer exists: REFERENCE_H0").get_digest(session)
target = sealed_by("An object with that secret as its policy", wanted)
tpm.unseal("TPM2_Unseal of it by the other session", target, SECRET, other)
start_again(other)
tpm("Once more: POLICY_FAIL/s1").unsealing(target, other)
trial = tpm.trial("A trial session")
tpm("TPM2_PolicyAuthValue in the other").auth_value_told(other)
tpm("TPM2_PolicySecret to the trial session").secret(trial, with_value(other), of=handle)
tpm.digest_is("The trial session has the same digest", trial, wanted)
tpm("By the trial session itself: ATTRIBUTES/s1").secret(trial, trial, of=handle)
