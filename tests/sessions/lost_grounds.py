"""Makes lost_grounds.tpm. How the grounds of tests/sessions/grounds.tpm are lost. In each case the
command is refused, by G9 unless stated otherwise. Next to it the same command is sent while the
condition holds. tests/sessions/replays.tpm shows how a session is lost.
"""

from tpmsim.standard import digests
from tpmsim.standard.policy import ALL_LOCALITIES
from tests.common.vocabulary import AUTH_VALUE, BY_OWNER, BY_POLICY, BY_VALUE, CC, ENDS, flipped
from tests.common.vocabulary import frames, HERE, name_of, NvAttribute, ObjectAttribute, PASSWORD
from tests.common.vocabulary import policy, RH_ENDORSEMENT, RH_LOCKOUT, RH_NULL, RH_OWNER
from tests.common.vocabulary import RH_PLATFORM, sealed, SHA1, SHA256, Use
from tests.sessions.grounds_caller import AFTER_AUTH_VALUE, after_code, after_equal_data
from tests.sessions.grounds_caller import AFTER_LOCALITY_1, AFTER_PCR_16, after_secret
from tests.sessions.grounds_caller import AT_LOCALITY_1, DATA, GroundsCaller, OWNER, PCR_16, PIN
from tests.sessions.grounds_caller import SECRET, ZEROS

USER = ObjectAttribute.USER_WITH_AUTH
AFTER_UNSEAL = after_code(CC.Unseal)
EQUAL, AT_LEAST = 0, 7  # operations of TPM2_PolicyNV
AT_LOCALITY_0_OR_1 = 0b11

tpm = GroundsCaller(__name__, __doc__, tries=True)
lost = tpm.lost


def by_key(key, handle, session):
    return tpm.with_key(key, tpm.unsealing, handle, Use(session, shows_empty_key=True))


def told_pcr(words):
    said = tpm(f"TPM2_PolicyRestart, TPM2_PolicyPCR, and {words}")
    said.asserts(tpm.restart(session), tpm.pcrs(session, PCR_16))


def is_lost(words, write):
    told_pcr(words)
    tpm.does("", write)
    lost("TPM2_Unseal: PCR_CHANGED", tpm.unsealing(handle, session))


def asserts_secret(words, cp_hash):
    said = tpm(f"TPM2_PolicySecret with the cpHash of {words}")
    said.secret(session, OWNER, of=RH_OWNER, cp_hash=cp_hash)


def extending(pcr, *values):
    return tpm.prepare(CC.PCR_Extend, [pcr], digests(*values), b"")


tpm('ownerAuth is "owner" from here on').change_auth(RH_OWNER, OWNER, b"")
openly = tpm.sealed_object("A protected object with userWithAuth", attributes=HERE | USER)
hmac = tpm.start("An HMAC session, which is unbound")

tpm.chapter("PASSWORDS. The password is not the value. Protected is what has no noDA.")
lost("A hierarchy: BAD_AUTH/s1", tpm.change_auth(RH_OWNER, OWNER, b"other"))
tpm("By the value").change_auth(RH_OWNER, OWNER, OWNER)
lost("A PCR, whose value is empty: BAD_AUTH/s1", tpm.reset(b"other"))
tpm("By the empty one").reset(b"")
passwords = b"other", PIN[:-1], PIN + b"1", b""
case = "A protected object: another password, a part of the value, more than it, and none"
lost(f"{case}: AUTH_FAIL/s1", *(tpm.unsealing(openly, it) for it in passwords))
tpm.unseal("By the value", openly, SECRET, PIN)
for words, attributes, outcome in (
    ("A protected index", BY_VALUE, "AUTH_FAIL/s1"),
    ("An index with NO_DA", BY_VALUE | NvAttribute.NO_DA, "BAD_AUTH/s1"),
):
    index = tpm.index(words, attributes)
    lost(f"By another password: {outcome}", tpm.writing(index, DATA, b"other"))
    tpm("By the value").writing(index, DATA)

tpm.chapter("THE VALUE IS OF NO USE. It is right, in a password and in an HMAC session.")
closed = tpm.sealed_object("An object without userWithAuth", AFTER_UNSEAL)
lost("TPM2_Unseal: AUTH_UNAVAILABLE", *(tpm.unsealing(closed, it) for it in (PIN, hmac)))
usable = tpm.sealed_object("An object with userWithAuth", AFTER_UNSEAL, HERE | USER)
tpm.unseal("TPM2_Unseal by the password", usable, SECRET, PIN)
tpm.unseal("TPM2_Unseal by the HMAC session", usable, SECRET, hmac)
tpm.flushed(closed, usable)
said = tpm("An index with AUTHWRITE and without AUTHREAD")
to_write = said.written_index(NvAttribute.AUTHWRITE | BY_OWNER)
lost("TPM2_NV_Read: AUTH_UNAVAILABLE", *(tpm.reading(to_write, 8, it) for it in (PIN, hmac)))
tpm("TPM2_NV_Write").writing(to_write, DATA, PIN)
said = tpm("An index with AUTHREAD and without AUTHWRITE")
to_read = said.written_index(NvAttribute.AUTHREAD | BY_OWNER)
lost("TPM2_NV_Write: AUTH_UNAVAILABLE", *(tpm.writing(to_read, DATA, it) for it in (PIN, hmac)))
tpm.read("TPM2_NV_Read", to_read, DATA, PIN)
said = tpm("An index whose policy is the command TPM2_NV_ChangeAuth")
admin = said.index(BY_VALUE, after_code(CC.NV_ChangeAuth))
case = "TPM2_NV_ChangeAuth, which is in the ADMIN role: AUTH_UNAVAILABLE"
lost(case, *(tpm.changing_auth(admin, PIN, it) for it in (PIN, hmac)))
tpm("TPM2_NV_Write, in the USER role").writing(admin, DATA, PIN)
case = "The owner, for this index without OWNERREAD, is refused by the command: NV_AUTHORIZATION"
tpm.refused_by("A1", case, tpm.reading(admin, 8, by=RH_OWNER))
tpm.read("And not for one that has it", to_read, DATA, by=RH_OWNER)

tpm.chapter("AN HMAC. It is of another text: here TPM2_NV_Write of a protected index.")
old = tpm.writing(to_write, DATA, hmac)
tpm.does("Right, and the nonceTPM is new", old)
lost("With the nonceTPM of before: AUTH_FAIL/s1", old)
other = tpm.written_index("Another index, with the same attributes", BY_OWNER | BY_VALUE)
right = tpm.writing(to_write, DATA, hmac)
entry = right.entries[0]
hmacs = flipped(entry.hmac), flipped(entry.hmac, 0), entry.hmac[:16]
case = "Another hmac: by its last bit, by its first byte, and half of it: AUTH_FAIL/s1"
lost(case, *(right.but_entry(1, hmac=it) for it in hmacs))
nonces = flipped(entry.nonce), b""
case = "Another nonceCaller, and none: AUTH_FAIL/s1"
lost(case, *(right.but_entry(1, nonce=it) for it in nonces))
for what, bent in (
    ("Other attributes: the session ends", right.but_entry(1, attributes=ENDS)),
    ("Other parameters", right.but(parameters=frames.nv_write(DATA[::-1]))),
    ("Another handle, which has another Name", right.but(handles=[other, other])),
    ("Another command, TPM2_NV_Increment", right.but(code=CC.NV_Increment)),
):
    lost(f"{what}: AUTH_FAIL/s1", bent)
tpm.does("Right, by the nonceTPM that is the same since the first", right)

tpm.chapter("An hmac with another key, here in TPM2_Unseal of a protected object.")
bound = tpm.start("A session bound to the object", openly)
other = tpm.start("A session bound to TPM_RH_ENDORSEMENT", RH_ENDORSEMENT)
case = "Unbound, with another value in the key, and with none: AUTH_FAIL/s1"
lost(case, by_key(b"other", openly, hmac), by_key(b"", openly, hmac))
tpm.unseal("With the value", openly, SECRET, hmac)
keys = bound.key + PIN, other.key
case = "Bound to the object, with the value in the key all the same, and by another session's key"
lost(f"{case}: AUTH_FAIL/s1", *(by_key(it, openly, bound) for it in keys))
tpm.unseal("By the session key alone", openly, SECRET, bound)
lost("Bound to another, without the value: AUTH_FAIL/s1", by_key(other.key, openly, other))
tpm.unseal("With the value in the key", openly, SECRET, other)

tpm.chapter("An empty one, although there is a key.")
for session, words in ((hmac, "the value"), (bound, "the session key")):
    lost(f"The key is {words}: AUTH_FAIL/s1", tpm.unsealing(openly, session).but_entry(1, hmac=b""))
tpm.flushed(bound, other)

tpm.chapter("A binding that has lapsed, by another value or by another Name.")
bound = tpm.start("A session bound to the owner", RH_OWNER)
tpm("ownerAuth is another").change_auth(RH_OWNER, b"other", OWNER)
changing = tpm.change_auth, RH_OWNER, OWNER, bound
lost("Without the value in the key: BAD_AUTH/s1", tpm.with_key(bound.key, *changing))
tpm("With the value in the key, and ownerAuth is unchanged").change_auth(RH_OWNER, OWNER, bound)
tpm("Without it, as it holds again").change_auth(RH_OWNER, OWNER, bound)
index = tpm.index("An index that is not written", BY_VALUE)
to_index = tpm.start("A session bound to it", index)
tpm("TPM2_NV_Write gives it another Name").writing(index, DATA)
writing = tpm.writing, index, DATA, to_index
lost("Without the value in the key: AUTH_FAIL/s1", tpm.with_key(to_index.key, *writing))
tpm("With it").writing(index, DATA, to_index)
tpm.flushed(bound, to_index)

named = tpm.sealed_object("An object whose policy is the command TPM2_Unseal", AFTER_UNSEAL)
session = tpm.policy("A policy session, which is unbound")

tpm.chapter("A POLICY. The session is a trial session (condition 1).")
trial = tpm.trial("The session is started")
tpm.asserts_code(trial)
lost("TPM2_Unseal by it: ATTRIBUTES/s1", tpm.unsealing(named, trial))
tpm.asserts_code(session)
tpm.unseal("By a policy session", named, SECRET, session)
tpm.flushed(trial)

tpm.chapter("The entity cannot have a policy (condition 2). No policy is asserted here.")
lost("An object with an empty authPolicy: AUTH_UNAVAILABLE", tpm.unsealing(openly, session))
hierarchies = RH_OWNER, RH_ENDORSEMENT, RH_PLATFORM, RH_LOCKOUT
lost(
    "The hierarchies, TPM_RH_NULL and a PCR: AUTH_UNAVAILABLE",
    *(tpm.change_auth(it, OWNER, session) for it in hierarchies),
    tpm.primary(RH_NULL, sealed(), session, data=SECRET),
    tpm.reset(session),
)
for words, attributes, auth_policy, authorized in (
    ("An index with an empty authPolicy", BY_POLICY, b"", None),
    (
        "An index with the authPolicy 32 zeros, without POLICYREAD",
        NvAttribute.POLICYWRITE,
        ZEROS,
        CC.NV_Write,
    ),
    (
        "An index with the authPolicy 32 zeros, without POLICYWRITE",
        NvAttribute.POLICYREAD,
        ZEROS,
        CC.NV_Read,
    ),
):
    index = tpm.written_index(words, attributes | BY_OWNER, auth_policy)
    for prepared in (tpm.writing(index, DATA, session), tpm.reading(index, 8, session)):
        name = f"TPM2_{prepared.code.name}"
        if prepared.code == authorized:
            tpm.does(name, prepared)
        else:
            lost(f"{name}: AUTH_UNAVAILABLE", prepared)

tpm.chapter("A PCR was written after TPM2_PolicyPCR (condition 3), here of PCR 16.")
handle = tpm.sealed_object("An object whose policy is that PCR 16 is zeros", AFTER_PCR_16)
value = SHA256, b"\1" * 32

is_lost("TPM2_PCR_Extend of PCR 16", extending(16, value))
told_pcr("no more")
lost("TPM2_Unseal: POLICY_FAIL/s1, as the digest is another", tpm.unsealing(handle, session))
tpm("TPM2_PCR_Reset of PCR 16 makes it zeros").reset(b"")
is_lost("TPM2_PCR_Reset of PCR 16, which is zeros already", tpm.reset(b""))
is_lost("TPM2_PCR_Event of PCR 23, which is not selected", tpm.event(b"event", b"", pcr=23))
is_lost("TPM2_Clear, which writes none", tpm.clearing(RH_PLATFORM))
tpm('ownerAuth is "owner" again').change_auth(RH_OWNER, OWNER, b"")
told_pcr("what neither writes one nor clears")
tpm.says("SUCCESS", extending(16), tpm.event(b"event", b"", pcr=RH_NULL))
tpm.unseal("TPM2_Unseal", handle, SECRET, session)

tpm.chapter("The same after TPM2_PolicyOR, which keeps the condition of the branch.")
branches = AFTER_PCR_16, AFTER_UNSEAL
either = tpm.sealed_object("An object with its policy", policy.after_or(SHA256, branches))
both = tpm.pcrs(session, PCR_16), tpm.branches(session, *branches)
tpm.asserts("TPM2_PolicyPCR and TPM2_PolicyOR", *both)
tpm("TPM2_PCR_Event of PCR 23").event(b"event", b"", pcr=23)
lost("TPM2_Unseal: PCR_CHANGED", tpm.unsealing(either, session))
tpm.asserts("Both assertions from the start", tpm.restart(session), *both)
tpm.unseal("TPM2_Unseal", either, SECRET, session)
tpm.flushed(handle, either)

tpm.chapter("The command is another than the one recorded (condition 4).")
said = tpm("An index whose policy is TPM2_NV_Read")
index = said.written_index(BY_POLICY | BY_OWNER, after_code(CC.NV_Read))
tpm.asserts_code(session, CC.NV_Read)
lost("TPM2_NV_Write: POLICY_CC/s1", tpm.writing(index, DATA, session))
tpm.read("TPM2_NV_Read", index, DATA, session)

tpm.chapter("The ADMIN role, and no command is recorded (condition 5), or another.")
index = tpm.index("An index whose authPolicy is 32 zeros", BY_POLICY, ZEROS)
lost("TPM2_NV_ChangeAuth: POLICY_FAIL/s1", tpm.changing_auth(index, PIN, session))
tpm("TPM2_NV_Write, in the USER role").writing(index, DATA, session)
admin = tpm("An index whose policy is TPM2_NV_ChangeAuth").index(
    BY_POLICY, after_code(CC.NV_ChangeAuth)
)
tpm.asserts_code(session, CC.NV_Read)
lost("TPM2_NV_ChangeAuth: POLICY_CC/s1", tpm.changing_auth(admin, PIN, session))
tpm.restarts(session)
tpm.asserts_code(session, CC.NV_ChangeAuth)
tpm("TPM2_NV_ChangeAuth").changing_auth(admin, PIN, session)

tpm.chapter(
    "The command has another cpHash than TPM2_PolicySecret has recorded (condition 5). The "
    "policy digest is the same for each."
)
auth_policy = after_secret(name_of(RH_OWNER))
first = tpm.index("An index with this policy", BY_POLICY, auth_policy)
second = tpm.index("Another index", BY_POLICY, auth_policy)
writing = lambda: tpm.writing(first, DATA, session)
before = tpm.cp_hash(writing())

asserts_secret("TPM2_NV_Write of the first one", before)
lost("Other parameters: POLICY_FAIL/s1", tpm.writing(first, DATA[::-1], session))
lost("Another handle: POLICY_FAIL/s1", tpm.writing(second, DATA, session))
lost("Another command: POLICY_FAIL/s1", tpm.reading(first, 8, session))
tpm.does("TPM2_NV_Write of the first one", writing())
asserts_secret("before", before)
lost("The same, of the Name that the first write gave it: POLICY_FAIL/s1", writing())
tpm.restarts(session)
asserts_secret("now", tpm.cp_hash(writing()))
tpm.does("TPM2_NV_Write", writing())

tpm.chapter("The policy is for an NV index that is not written (condition 6).")
unwritten = policy.after_nv_written(SHA256, ZEROS, False)
index = tpm.index("An index with this policy", BY_POLICY, unwritten)
handle = tpm.sealed_object("An object with it", unwritten)
asserts = lambda: tpm.asserts("TPM2_PolicyNvWritten of 0", tpm.written_told(session, False))
asserts()
lost("TPM2_Unseal of the object: POLICY_FAIL/s1", tpm.unsealing(handle, session))
tpm("TPM2_NV_Write, the first one").writing(index, DATA, session)
asserts()
lost("The second one: POLICY_FAIL/s1", tpm.writing(index, DATA, session))
tpm.restarts(session)
tpm.flushed(handle)

tpm.chapter("The command comes from a locality that is not named (condition 7).")
handle = tpm.sealed_object("An object whose policy is locality 1", AFTER_LOCALITY_1)
tpm.asserts("TPM2_PolicyLocality of 1", tpm.locality(session, AT_LOCALITY_1))
lost("TPM2_Unseal from locality 0: LOCALITY", tpm.unsealing(handle, session))
tpm.locality_is(2)
lost("From locality 2: LOCALITY", tpm.unsealing(handle, session))
tpm.locality_is(1)
tpm.unseal("From locality 1", handle, SECRET, session)
tpm.locality_is(0)
tpm.flushed(handle)

tpm.chapter("The hash of the session is not the nameAlg of the entity (condition 8).")
by_sha1 = tpm.policy("A policy session of SHA-1", algorithm=SHA1)
tpm.asserts_code(by_sha1)
lost("The nameAlg is SHA-256: POLICY_FAIL/s1", tpm.unsealing(named, by_sha1))
said = tpm("An object with nameAlg SHA-1")
of_sha1 = said.sealed_object(after_code(CC.Unseal, SHA1), algorithm=SHA1)
tpm.unseal("The session authorizes the object", of_sha1, SECRET, by_sha1)
tpm.asserts_code(session)
lost("A session of SHA-256 does not: POLICY_FAIL/s1", tpm.unsealing(of_sha1, session))
tpm.unseal("Which authorizes what has its hash", named, SECRET, session)
tpm.flushed(by_sha1, of_sha1)

tpm.chapter("The policy digest is not the authPolicy (condition 8): an assertion differs.")
compared = tpm.written_index("An index that TPM2_PolicyNV looks at", BY_OWNER)
auth_policy = policy.after_locality(SHA256, AFTER_PCR_16, AT_LOCALITY_0_OR_1)
auth_policy = policy.after_secret(SHA256, auth_policy, name_of(RH_OWNER), b"disk")
auth_policy = after_equal_data(tpm.name(compared), auth_policy)
handle = tpm.sealed_object("An object with a policy of four assertions", auth_policy)
use = lambda: tpm.unsealing(handle, session)
restart = tpm.restart(session)
pcr_16, pcr_23 = (tpm.pcrs(session, [(SHA256, [it])]) for it in (16, 23))
two, all_of_them = (tpm.locality(session, it) for it in (AT_LOCALITY_0_OR_1, ALL_LOCALITIES))
secret, other_ref = (
    tpm.secret(session, OWNER, of=RH_OWNER, policy_ref=it) for it in (b"disk", b"tape")
)
other_value = tpm.secret(session, policy_ref=b"disk")
equal, at_least = (
    tpm.comparing(session, compared, DATA, operation=it, by=RH_OWNER) for it in (EQUAL, AT_LEAST)
)
lost("Nothing is asserted: POLICY_FAIL/s1", use())
for what, *told in (
    ("PCR 23 instead of PCR 16, both zeros", pcr_23, two, secret, equal),
    ("All localities instead of two", pcr_16, all_of_them, secret, equal),
    ("The value of another entity", pcr_16, two, other_value, equal),
    ("Another policyRef", pcr_16, two, other_ref, equal),
    ("At least the data, instead of just them", pcr_16, two, secret, at_least),
    ("A policy with one assertion less", pcr_16, two, secret),
    ("A policy with one assertion more", pcr_16, two, secret, equal, all_of_them),
    ("Another order", two, pcr_16, secret, equal),
    ("Just the policy, and TPM2_PolicyRestart", pcr_16, two, secret, equal, restart),
):
    tpm.asserts(what, restart, *told)
    lost("TPM2_Unseal: POLICY_FAIL/s1", use())
tpm.asserts("Just the policy", pcr_16, two, secret, equal)
tpm.does("TPM2_Unseal", use())
lost("Once more: POLICY_FAIL/s1, as it has counted for one command", use())
tpm.flushed(handle)

tpm.chapter("THE HMAC OF A POLICY SESSION. Nothing is demanded: the key is the session key.")
handle = tpm.sealed_object("An object whose authPolicy is 32 zeros", ZEROS)
bound = tpm.policy("A policy session bound to TPM_RH_OWNER, which has a key", bind=RH_OWNER)
right = tpm.unsealing(handle, bound)
lost("By no hmac: BAD_AUTH/s1", right.but_entry(1, hmac=b""))
lost("With the value of the object in the key: BAD_AUTH/s1", by_key(bound.key + PIN, handle, bound))
tpm.unseal("By its key", handle, SECRET, bound)
lost("With the nonceTPM of before: BAD_AUTH/s1", right)
tpm.unseal("With that of now", handle, SECRET, bound)
shown = by_key(b"other", handle, session)
lost("An unbound session, whose key is empty: by another key: BAD_AUTH/s1", shown)
tpm.unseal("By none", handle, SECRET, session)
tpm.flushed(bound)
undemanding = handle

tpm.chapter("TPM2_PolicyPassword: the hmac is not the value in plain.")
said = tpm("An object with its policy, which is that of TPM2_PolicyAuthValue, too")
handle = said.sealed_object(AFTER_AUTH_VALUE)
by_password = lambda: tpm.unsealing(handle, Use(session, demand=PASSWORD))
by_value = lambda: tpm.unsealing(handle, Use(session, demand=AUTH_VALUE))
by_nothing = lambda: tpm.unsealing(handle, Use(session, shows_empty_key=True))
tpm.asserts_password(session)
lost("The hmac field is empty: AUTH_FAIL/s1", by_password().but_entry(1, hmac=b""))
lost(
    "The hmac field contains another value: AUTH_FAIL/s1", by_password().but_entry(1, hmac=b"other")
)
lost("The hmac field contains an hmac with the value in its key: AUTH_FAIL/s1", by_value())
tpm.does("The hmac field contains the value", by_password())

tpm.chapter("TPM2_PolicyAuthValue: the value is not in the key of the hmac.")
tpm.asserts_value(session)
lost("There is no hmac: AUTH_FAIL/s1", by_value().but_entry(1, hmac=b""))
lost("The hmac is by the session key alone, which is empty: AUTH_FAIL/s1", by_nothing())
lost("Another value is in the key: AUTH_FAIL/s1", by_key(b"other", handle, session))
lost("The value is there in plain: AUTH_FAIL/s1", by_password())
tpm.does("The value is in the key", by_value())
demanding = handle

# Right commands that are refused because the failed tries of this script have caused a lockout.
tpm.chapter("LOCKOUT. Who would compare the value of a protected entity is refused.")
bound = tpm.start("A session bound to the object", openly)
tpm.set_protection("maxTries is 1, and there were more", 1, 1000, 1)
case = "By the password, by an unbound session and by the bound one: LOCKOUT"
lost(case, *(tpm.unsealing(openly, it) for it in (PIN, hmac, bound)))
use = lambda: tpm.unsealing(demanding, Use(session, demand=AUTH_VALUE))
tpm.asserts_value(session)
lost("By a policy that demands the value: LOCKOUT", use())
tpm.asserts("TPM2_PolicyRestart", tpm.restart(session))
tpm.unseal("By a policy that demands none", undemanding, SECRET, session)
tpm.unlocks()
for what, by in (("By the password, and by both sessions", PIN), ("", hmac), ("", bound)):
    tpm.unseal(what, openly, SECRET, by)
tpm.asserts_value(session)
tpm.does("By the policy that demands the value", use())
tpm.flushed(bound, demanding, undemanding)

tpm.chapter(
    "WHAT IS ASKED ONCE. TPM2_PolicyNV and TPM2_PolicySecret look at data and at a value as "
    "they are told, and not as the command comes."
)
said = tpm("An object whose policy is what an index holds")
handle = said.sealed_object(after_equal_data(tpm.name(compared)))
told = tpm.comparing(session, compared, DATA, by=RH_OWNER)
tpm.does("TPM2_PolicyNV", told)
tpm("Other data are written").writing(compared, DATA[::-1], by=RH_OWNER)
tpm.unseal("TPM2_Unseal", handle, SECRET, session)
tpm.refused_by("A5", "TPM2_PolicyNV once more: POLICY", told)
said = tpm("An object whose policy is the owner's value")
handle = said.sealed_object(after_secret(name_of(RH_OWNER)))
told = tpm.secret(session, OWNER, of=RH_OWNER)
tpm.does("TPM2_PolicySecret", told)
tpm("ownerAuth is another").change_auth(RH_OWNER, b"other", OWNER)
tpm.unseal("TPM2_Unseal", handle, SECRET, session)
lost("TPM2_PolicySecret once more: BAD_AUTH/s1", told)
