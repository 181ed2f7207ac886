"""Makes object_sessions.tpm. HMAC sessions that authorize objects. The Name of an object is used
wherever a hierarchy's handle is used: in the hash of a command, in a binding, and in
TPM2_PolicySecret.
"""

from tpmsim.standard import policy_secret, start_auth_session
from tests.common.steps import PROTECTED, Steps
from tests.common.vocabulary import ALG_NULL, CC, command, HASHES, HERE, hmac_key, number, policy
from tests.common.vocabulary import RH_ENDORSEMENT, RH_NULL, RH_OWNER, sealed, SHA1, SHA256
from tests.common.vocabulary import storage_key, Use, zeros

SECRET, PIN = b"secret", b"pin"

tpm = Steps(__name__, __doc__, tries=True)
parent = tpm.owned("A storage key", storage_key())
said = tpm('TPM2_Create of sealed data, whose value is "pin"')
made = said.create(parent, sealed(), user_auth=PIN, data=SECRET)
handle = tpm.load("TPM2_Load", parent, made)
twin = tpm.owned("Other sealed data with the same value", sealed(), user_auth=PIN, data=SECRET)

for algorithm, hash_name in reversed(HASHES):
    tpm.chapter(f"Sessions with {hash_name}.")
    unbound = tpm.start("A session that is bound to nothing", algorithm=algorithm)
    bound = tpm.start("A session that is bound to the object", bind=handle, algorithm=algorithm)
    owner = tpm.start("A session that is bound to TPM_RH_OWNER", bind=RH_OWNER, algorithm=algorithm)
    for what, session in (
        ("By the first", unbound),
        ("By the one that is bound to it: its key is the session's alone", bound),
        ("By the one that is bound to something else", owner),
    ):
        right = tpm.unsealing(handle, session)
        said = tpm(f"{what}: without an hmac, and with a wrong one: BAD_AUTH/s1")
        said.refused(right.but_entry(1, hmac=b""), right.but_entry(1, hmac=bytes(32)))
        tpm.accepted("TPM2_Unseal", right)
        tpm.refused("The same buffer is sent again: BAD_AUTH/s1", right)
        tpm.unseal("A new one", handle, SECRET, session)
    with tpm.breaking(key=lambda use, handle: use.session.key + PIN):
        tpm("By the bound one, with the value in the key: BAD_AUTH/s1").unsealing(handle, bound)
    tpm.unseal("The bound one authorizes the other object, too", twin, SECRET, bound)
    with tpm.breaking(key=lambda use, handle: use.session.key):
        tpm("But with that one's value in the key: BAD_AUTH/s1").unsealing(twin, bound)
    tpm("The same session authorizes a PCR").reset(bound)

    tpm.chapter("The hash of a command has the object's Name in it, and not its handle.")
    said = tpm("An hmac for the one, with the handle of the other: BAD_AUTH/s1")
    said.refused(tpm.unsealing(handle, unbound).but(handles=[twin]))
    names = dict(tpm.names)
    tpm.names.clear()
    tpm("An hmac with the handle instead of the Name: BAD_AUTH/s1").unsealing(handle, unbound)
    tpm.names.update(names)
    again = tpm.load("The object once more, with another handle", parent, made)
    assert again != handle
    prepared = tpm.unsealing(handle, unbound)
    said = tpm("An hmac for the first, with the handle of the second")
    said.accepted(prepared.but(handles=[again]))
    prepared = tpm.unsealing(handle, bound)
    tpm.accepted(
        "The same with the session that is bound to the first object", prepared.but(handles=[again])
    )
    tpm.unseal("The session is bound to the second object as well", again, SECRET, bound)

    tpm.chapter("The object is flushed, and loaded again.")
    tpm.flush_objects("Both objects are flushed", handle, again)
    tpm("The session that is bound to it lives on").reset(bound)
    tpm("But there is no object: REFERENCE_H0").prepare(CC.Unseal, [handle], b"", bound)
    alien = tpm.owned("Another object takes the place of one", sealed(), user_auth=PIN, data=b"x")
    assert alien in (handle, again)
    tpm.unseal("To that it is not bound, and the value is in the key", alien, b"x", bound)
    handle = tpm.load("TPM2_Load of the object", parent, made)
    assert handle != alien
    tpm.unseal("To this it is bound: its key is the session's alone", handle, SECRET, bound)
    tpm.flush_objects("The other object is flushed", alien)
    tpm.flushes("A session is flushed", unbound, bound, owner)

tpm.chapter("TPM2_StartAuthSession: bind is an object.")
start = tpm.prepare(CC.StartAuthSession, *start_auth_session(bytes(16)))
said = tpm("An object that does not exist: REFERENCE_H1")
absent = 0x8000_0006, 0x8000_0007, 0x8000_0008, 0x80FF_FFFF
said.says(*(start.but(handles=[RH_NULL, it]) for it in absent))
tpm.says("A persistent one: HANDLE/h2", start.but(handles=[RH_NULL, 0x8100_0000]))
for what, public, data in (
    ("A storage key", storage_key(), b""),
    ("An HMAC key with nameAlg SHA-1", hmac_key(SHA1), b"key"),
    ("Without userWithAuth", sealed(attributes=HERE), b"x"),
):
    other = tpm.create_primary(what, RH_ENDORSEMENT, public, user_auth=b"other", data=data)
    session = tpm.start("A session that is bound to it", bind=other)
    tpm("TPM2_PCR_Reset by that").reset(session)
    tpm.flush_objects("The object is flushed", other)
    tpm("TPM2_PCR_Reset by the session").reset(Use(session, 0))

tpm.chapter("A wrong entry is a try if it uses the value of an object without noDA.")
guarded = tpm.owned("Such an object", sealed(attributes=PROTECTED), user_auth=PIN, data=SECRET)
plain = tpm.start("A session that is bound to nothing")
to_guarded = tpm.start("A session that is bound to this object", bind=guarded)
to_open = tpm.start("A session that is bound to an object with noDA", bind=handle)


def wrong(prepared):
    return prepared.but_entry(1, hmac=bytes(32))


sessions = {
    "bound to nothing": plain,
    "bound to the first object": to_guarded,
    "bound to the one with noDA": to_open,
}
for what, prepare, tries in (
    ("of that object", lambda it: tpm.unsealing(guarded, it), (plain, to_guarded, to_open)),
    ("of the object with noDA", lambda it: tpm.unsealing(handle, it), (to_guarded,)),
    ("of TPM_RH_OWNER", lambda it: tpm.change_auth(RH_OWNER, b"", it), (to_guarded,)),
):
    for name, session in sessions.items():
        outcome = "AUTH_FAIL" if session in tries else "BAD_AUTH"
        prepared = prepare(session)
        said = tpm(f"The authorization {what}, by the session that is {name}: {outcome}/s1")
        said.refused(wrong(prepared))
        tpm.accepted("The right one", prepared)
case = "An entry that authorizes nothing, of the session that is bound to the object: AUTH_FAIL/s1"
tpm.refused(case, wrong(tpm.random(1, to_guarded)))
said = tpm("Of the session that is bound to the one with noDA: BAD_AUTH/s1")
said.refused(wrong(tpm.random(1, to_open)))
tpm.flush_objects("The object is flushed", guarded)
said = tpm("A wrong hmac of the session that was bound to it is still a failed try: AUTH_FAIL/s1")
said.refused(wrong(tpm.random(1, to_guarded)))
tpm.flushes("A session is flushed", plain, to_guarded, to_open)

tpm.chapter("TPM2_PolicySecret with an object as authHandle.")
for algorithm, hash_name in reversed(HASHES):
    said = tpm(f"An object with nameAlg {hash_name}")
    key = said.create_primary(RH_ENDORSEMENT, hmac_key(algorithm), user_auth=PIN, data=b"key")
    session = tpm.policy("A policy session")
    handles = number(key, 4), number(session.handle, 4)
    for what, outcome, handle_text in (
        ("After the object's handle: three bytes", "INSUFFICIENT/h2", handles[1][:3]),
        ("A handle that is no policy session's", "VALUE/h2", handles[0]),
        ("A policy session that is not there", "REFERENCE_H1", number(0x0300_000F, 4)),
        ("No sessions (tag 8001)", "AUTH_MISSING", handles[1]),
    ):
        tpm.raw(f"{what}: {outcome}", command(CC.PolicySecret, handles[0] + handle_text))
    tpm("By a wrong value: BAD_AUTH/s1").secret(session, b"nip", of=key)
    tpm.accepted("By its value", tpm.secret(session, PIN, of=key, policy_ref=b"ref"))
    told = policy.after_secret(SHA256, zeros(session), tpm.names[key], b"ref")
    tpm.digest_is("The Name of the object is in the digest", session, told)
    bound = tpm.start("An HMAC session that is bound to it", bind=key, algorithm=algorithm)
    tpm("By that session").secret(session, bound, of=key)
    told = policy.after_secret(SHA256, told, tpm.names[key], b"")
    tpm.digest_is("The digest goes on", session, told)
    said = tpm("An object with this policy: TPM2_Create")
    target = said.below(parent, sealed(attributes=HERE, auth_policy=told), data=SECRET)
    tpm.flush_objects("The key is flushed", key)
    tpm.unseal("TPM2_Unseal: what was shown counts", target, SECRET, session)
    said = tpm("The key is no more: REFERENCE_H0")
    said.prepare(CC.PolicySecret, [key, session.handle], policy_secret(), b"")
    tpm.flush_objects("The object is flushed", target)
    tpm.flushes("A session is flushed", session, bound)

tpm.chapter("Three sessions at once.")
first, second, third = (
    tpm.start("A session with AES", bind=it, aes=True) for it in (handle, twin, 10)
)
said = tpm("The first authorizes, the second encrypts")
said.unseal(handle, SECRET, first, second.encrypting, third)
key = tpm.owned("An HMAC key", hmac_key(), third, first.decrypting, second.encrypting, data=b"k")
said = tpm("The second authorizes, the third decrypts, and the first encrypts")
said.hmac(key, b"text", ALG_NULL, second, third.decrypting, first.encrypting)
tpm.flush_objects("All are flushed", key, handle, twin, parent)
