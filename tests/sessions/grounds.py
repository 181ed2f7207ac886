"""Makes grounds.tpm. Everything that can authorize an entity (a ground) is used once and accepted:
a password, the HMAC of an HMAC session, or a policy session whose policy holds.
tests/sessions/lost_grounds.tpm shows how the same grounds are lost.
"""

from functools import partial
from typing import Callable, NamedTuple

from tests.common.vocabulary import AUTH_VALUE, BY_OWNER, BY_PLATFORM, BY_POLICY, CC, ENDS, HERE
from tests.common.vocabulary import name_of, NvAttribute, ObjectAttribute, PASSWORD, policy
from tests.common.vocabulary import RH_ENDORSEMENT, RH_LOCKOUT, RH_NULL, RH_OWNER, RH_PLATFORM
from tests.common.vocabulary import sealed, SHA1, SHA256, Use
from tests.sessions.grounds_caller import AFTER_AUTH_VALUE, after_code, after_equal_data
from tests.sessions.grounds_caller import AFTER_LOCALITY_1, AFTER_PCR_16, after_secret
from tests.sessions.grounds_caller import AT_LOCALITY_1, DATA, GroundsCaller, OWNER, PCR_16, PIN
from tests.sessions.grounds_caller import SECRET, ZEROS

USER = ObjectAttribute.USER_WITH_AUTH
KEPT = 0x8100_0001
REF = b"disk"
HIERARCHIES = {
    RH_OWNER: ("The owner", OWNER),
    RH_ENDORSEMENT: ("The endorsement hierarchy", b"endorsement"),
    RH_PLATFORM: ("The platform", b"platform"),
    RH_LOCKOUT: ("TPM_RH_LOCKOUT", b"lockout"),
}

tpm = GroundsCaller(__name__, __doc__)

# The null hierarchy's authorization value is empty, and can authorize only this command.
at_null = partial(tpm.primary, RH_NULL, sealed(), data=SECRET)


class Entity(NamedTuple):
    """An entity whose authorization value authorizes a command: its handle, the command, and a
    function that prepares the command.
    """

    words: str
    handle: int
    command: str
    prepare: Callable


def with_policy(auth_policy):
    """Creates a sealed object and defines an index. Only this policy authorizes them. Returns the
    object and functions that prepare commands on both.
    """
    handle = tpm.sealed_object("An object and an index with this policy", auth_policy)
    index = tpm.index("", BY_POLICY, auth_policy)
    return handle, (
        ("TPM2_Unseal", partial(tpm.unsealing, handle)),
        ("TPM2_NV_Write by POLICYWRITE", partial(tpm.writing, index, DATA)),
        ("TPM2_NV_Read by POLICYREAD", partial(tpm.reading, index, len(DATA))),
    )


def condition(words, auth_policy, told, *assertions, demand=None, locality=0):
    """Checks that a session that satisfies a policy authorizes commands: it has made the
    assertions, its entry meets the demand, and the locality is right. An assertion may be a
    function of the command that the session then authorizes.
    """
    tpm.chapter(words)
    handle, commands = with_policy(auth_policy)
    if locality:
        tpm.locality_is(locality)
    for name, prepare in commands:
        prepared = prepare(Use(session, demand=demand))
        those = (it(prepared) if callable(it) else it for it in assertions)
        tpm.asserts(f"{told}, and {name}", *those)
        tpm.does("", prepared)
    if locality:
        tpm.locality_is(0)
    tpm.flushed(handle)


tpm.chapter('The entities of this script. The value of objects and indices is "pin".')
for handle, (name, value) in HIERARCHIES.items():
    what = f'{name}, whose value is empty at first, and "{value.decode("ascii")}" from here on'
    tpm(what).change_auth(handle, value, b"")
loaded = tpm.sealed_object("An object with userWithAuth", attributes=HERE | USER, by=RH_OWNER)
tpm.keep("A persistent copy of it", RH_OWNER, loaded, KEPT)
to_write = tpm.index("An index with AUTHWRITE", NvAttribute.AUTHWRITE | NvAttribute.OWNERREAD)
tpm("The index is written").writing(to_write, DATA)
said = tpm("An index with AUTHREAD, which the owner writes")
to_read = said.written_index(NvAttribute.AUTHREAD | NvAttribute.OWNERWRITE)
of_owner = tpm.written_index("An index with OWNERWRITE and OWNERREAD", BY_OWNER)
of_platform = tpm.index("An index with PPWRITE and PPREAD", BY_PLATFORM)
tpm("The index is written").writing(of_platform, DATA, by=RH_PLATFORM)
owner, platform = (f"The {it}, for an index with" for it in ("owner", "platform"))
write, read, unseal = "TPM2_NV_Write", "TPM2_NV_Read", "TPM2_Unseal"
writes = lambda index, asker: partial(tpm.writing, index, DATA, by=asker)
reads = lambda index, asker: partial(tpm.reading, index, len(DATA), by=asker)
found = (
    *(
        Entity(name, it, "TPM2_HierarchyChangeAuth", partial(tpm.change_auth, it, value))
        for it, (name, value) in HIERARCHIES.items()
    ),
    Entity("The object", loaded, unseal, partial(tpm.unsealing, loaded)),
    Entity("The persistent object", KEPT, unseal, partial(tpm.unsealing, KEPT)),
    Entity("The index with AUTHWRITE", to_write, write, writes(to_write, to_write)),
    Entity("The index with AUTHREAD", to_read, read, reads(to_read, to_read)),
    Entity(f"{owner} OWNERWRITE", RH_OWNER, write, writes(of_owner, RH_OWNER)),
    Entity(f"{owner} OWNERREAD", RH_OWNER, read, reads(of_owner, RH_OWNER)),
    Entity(f"{platform} PPWRITE", RH_PLATFORM, write, writes(of_platform, RH_PLATFORM)),
    Entity(f"{platform} PPREAD", RH_PLATFORM, read, reads(of_platform, RH_PLATFORM)),
)

tpm.chapter("PASSWORDS. The password is the authorization value of the entity.")
for entity in found:
    tpm.does(f"{entity.words}: {entity.command}", entity.prepare(tpm.auth_value(entity.handle)))
tpm("A PCR, whose value is always empty: TPM2_PCR_Reset").reset(b"")
tpm.flushed_new("TPM_RH_NULL, whose is too: TPM2_CreatePrimary", at_null(b""))
for entity in found[:8]:
    what = "With zeros after the value, which do not count" if entity is found[0] else ""
    tpm.does(what, entity.prepare(tpm.auth_value(entity.handle) + bytes(2)))
tpm("The empty password, if the value is empty").reset(bytes(32))

tpm.chapter(
    "HMAC SESSIONS. The key of the hmac is the session key, which an unbound session has not, "
    "and the value of the entity; but where the session is bound to that very entity its value "
    "is left out."
)
unbound = tpm.start("A session bound to nothing")
other = tpm.start("A session bound to PCR 16", 16)
for entity in found:
    tpm.chapter(f"{entity.words}: {entity.command}.")
    tpm.does("Bound to nothing: the key is the value", entity.prepare(unbound))
    tpm.does("Bound to another: the key is both", entity.prepare(other))
    bound = tpm.start("A session bound to the entity", entity.handle)
    tpm.does("The key is the session key|and it ends", entity.prepare(Use(bound, ENDS)))

loaded, kept = found[4:6]
tpm.chapter("A session is bound by the Name, so that it may be a copy that is authorized.")
bound = tpm.start("A session of SHA-1, bound to the object", loaded.handle, SHA1)
tpm.does("TPM2_Unseal of the object, whose nameAlg is SHA-256", loaded.prepare(bound))
tpm.does("Of the persistent object, and the key is the session key", kept.prepare(bound))
tpm.flushed(bound)

tpm.chapter("Key and hmac are both empty: a session bound to nothing, and an empty value.")
said = tpm("An object with userWithAuth, whose value is empty")
openly = said.sealed_object(attributes=HERE | USER, value=b"")
tpm("A PCR: TPM2_PCR_Reset").reset(unbound)
tpm.flushed_new("TPM_RH_NULL: TPM2_CreatePrimary", at_null(unbound))
tpm.unseal("The object: TPM2_Unseal", openly, SECRET, unbound)
tpm.unseal("Or it is the hmac of the empty key", openly, SECRET, Use(unbound, shows_empty_key=True))
tpm.unseal("A session that has a key shows it", openly, SECRET, other)
tpm.flushed(openly, unbound, other)

tpm.chapter(
    "POLICY SESSIONS, on objects and NV indices: nothing else has a policy. The session is no "
    "trial session, its hash is the nameAlg of the entity, and its policy digest the "
    "authPolicy. What it asserted holds when the command comes, and counts for one command."
)
session = tpm.policy("A policy session, which is bound to nothing and so has no key")
bound = tpm.policy("A session bound to the owner, which has a key", bind=RH_OWNER)

tpm.chapter(
    "Nothing is demanded: the key of the hmac is the session key alone. Here the policy has no "
    "assertion either: authPolicy is the digest that a session starts with, 32 zeros."
)
handle, commands = with_policy(ZEROS)
for name, prepare in commands:
    tpm.does(f"{name}: key and hmac are both empty", prepare(session))
    tpm.does("Or it is the hmac of the empty key", prepare(Use(session, shows_empty_key=True)))
    tpm.does("Or by the session that has a key", prepare(bound))
tpm.flushed(handle)
both = tpm.sealed_object("An object with userWithAuth and this policy", ZEROS, HERE | USER)
tpm.unseal("TPM2_Unseal by the policy", both, SECRET, session)
tpm.unseal("TPM2_Unseal by the password", both, SECRET, PIN)
tpm.flushed(both)

# The policies are in the same order as in docs/table/policies.md.
BRANCHES = AFTER_PCR_16, AFTER_AUTH_VALUE
EITHER = policy.after_or(SHA256, BRANCHES)
ONE_TO_THREE, THREE_OR_FOUR = 0b01110, 0b11000
AFTER_ONE_TO_THREE = policy.after_locality(SHA256, ZEROS, ONE_TO_THREE)
AT_THREE = policy.after_locality(SHA256, AFTER_ONE_TO_THREE, THREE_OR_FOUR)
compared = tpm.written_index("An index that TPM2_PolicyNV looks at", BY_OWNER)
pcr_16, either = tpm.pcrs(session, PCR_16), tpm.branches(session, *BRANCHES)
value, password = tpm.auth_value_told(session), tpm.password_told(session)
at_one, one_to_three, three_or_four = (
    tpm.locality(session, it) for it in (AT_LOCALITY_1, ONE_TO_THREE, THREE_OR_FOUR)
)
by_owner = tpm.secret(session, OWNER, of=RH_OWNER, policy_ref=REF)
by_kept = lambda it: tpm.secret(session, PIN, of=KEPT, cp_hash=tpm.cp_hash(it))
equal = tpm.comparing(session, compared, DATA, by=RH_OWNER)
words = "TPM2_PolicyPCR: no PCR has changed between the assertion and the command."
condition(words, AFTER_PCR_16, "TPM2_PolicyPCR of PCR 16", pcr_16)
words = "TPM2_PolicyOR of two branches. The first one: PCR 16 is unchanged."
condition(words, EITHER, "TPM2_PolicyPCR of PCR 16, TPM2_PolicyOR", pcr_16, either)
words = "TPM2_PolicyOR of the same branches. The second one: the value is known."
told = "TPM2_PolicyAuthValue, TPM2_PolicyOR"
condition(words, EITHER, told, value, either, demand=AUTH_VALUE)
words = "TPM2_PolicyAuthValue: the value of the entity is in the key of the hmac."
condition(words, AFTER_AUTH_VALUE, "TPM2_PolicyAuthValue", value, demand=AUTH_VALUE)
words = "TPM2_PolicyPassword: the hmac is the value of the entity in plain."
condition(words, AFTER_AUTH_VALUE, "TPM2_PolicyPassword", password, demand=PASSWORD)
words = "TPM2_PolicyLocality: the command comes from locality 1."
condition(words, AFTER_LOCALITY_1, "TPM2_PolicyLocality of 1", at_one, locality=1)
words = "TPM2_PolicyLocality twice: the command comes from what both have, locality 3."
told = "TPM2_PolicyLocality of 1 to 3, of 3 and 4"
condition(words, AT_THREE, told, one_to_three, three_or_four, locality=3)
words = "TPM2_PolicySecret of the owner, with a policyRef: its value was known."
condition(words, after_secret(name_of(RH_OWNER), REF), "TPM2_PolicySecret", by_owner)
words = "TPM2_PolicySecret of the persistent object. It records a cpHash: the command has just this"
told = "TPM2_PolicySecret with the cpHash of the command"
condition(f"{words} one.", after_secret(tpm.name(KEPT)), told, by_kept)
words = "TPM2_PolicyNV: an index held what it was compared with."
condition(words, after_equal_data(tpm.name(compared)), "TPM2_PolicyNV", equal)

tpm.chapter("Demands of policies, with other keys and other values.")
handle = tpm.sealed_object("An object whose policy is either of the two", AFTER_AUTH_VALUE)
tpm.asserts_value(bound)
demanded = Use(bound, demand=AUTH_VALUE)
tpm.unseal("TPM2_Unseal: the key is the session key and the value", handle, SECRET, demanded)
tpm.asserts_password(bound)
tpm.unseal("TPM2_Unseal by the value, and by no key", handle, SECRET, Use(bound, demand=PASSWORD))
to_it = tpm.policy("A policy session bound to the object", bind=handle)
tpm.asserts_value(to_it)
said = tpm("TPM2_Unseal: here the value is in the key all the same")
said.unseal(handle, SECRET, Use(to_it, demand=AUTH_VALUE))
tpm.flushed(to_it, handle)
said = tpm("An object with this policy, whose value is empty")
openly = said.sealed_object(AFTER_AUTH_VALUE, value=b"")
unbound = tpm.policy("A policy session bound to nothing")
for told, demand in ((tpm.asserts_value, AUTH_VALUE), (tpm.asserts_password, PASSWORD)):
    told(unbound)
    tpm.unseal("TPM2_Unseal by an empty hmac", openly, SECRET, Use(unbound, demand=demand))
tpm.flushed(unbound, openly)

tpm.chapter(
    "TPM2_PolicyCommandCode: the command is the one that is recorded. So an object and two "
    "indices have each a policy of their own. All three are in the USER role."
)
handle = tpm.sealed_object("An object for TPM2_Unseal", after_code(CC.Unseal))
said = tpm("An index for TPM2_NV_Write")
written = said.index(NvAttribute.POLICYWRITE | NvAttribute.OWNERREAD, after_code(CC.NV_Write))
said = tpm("An index for TPM2_NV_Read, which the owner writes")
read = said.written_index(NvAttribute.POLICYREAD | NvAttribute.OWNERWRITE, after_code(CC.NV_Read))
tpm.asserts_code(session)
tpm.unseal("TPM2_Unseal", handle, SECRET, session)
tpm.asserts_code(session, CC.NV_Write)
tpm("TPM2_NV_Write").writing(written, DATA, session)
tpm.asserts_code(session, CC.NV_Read)
tpm.read("TPM2_NV_Read", read, DATA, session)
tpm.flushed(handle)

tpm.chapter(
    "The ADMIN role, in which TPM2_NV_ChangeAuth alone authorizes: the command is recorded. No "
    "attribute of the index is asked for."
)
recorded = after_code(CC.NV_ChangeAuth)
index = tpm.index("An index whose policy is that command", BY_OWNER, recorded)
tpm.asserts_code(session, CC.NV_ChangeAuth)
tpm("TPM2_NV_ChangeAuth").changing_auth(index, b"new", session)
said = tpm("One whose policy has TPM2_PolicyAuthValue or TPM2_PolicyPassword after it")
index = said.index(BY_OWNER, policy.after_auth_value(SHA256, recorded))
tpm.asserts_code(session, CC.NV_ChangeAuth)
tpm.asserts_value(session)
said = tpm("TPM2_NV_ChangeAuth by the value, and its answer is by the new one")
said.changing_auth(index, b"new", Use(session, demand=AUTH_VALUE))
tpm.asserts_code(session, CC.NV_ChangeAuth)
tpm.asserts_password(session)
tpm("TPM2_NV_ChangeAuth by it").changing_auth(index, PIN, Use(session, demand=PASSWORD))

tpm.chapter("All at once: a PCR, a locality, a command, a cpHash and the value.")
auth_policy = policy.after_locality(SHA256, AFTER_PCR_16, AT_LOCALITY_1)
auth_policy = policy.after_command_code(SHA256, auth_policy, CC.NV_Write)
auth_policy = policy.after_secret(SHA256, auth_policy, name_of(RH_OWNER), b"")
auth_policy = policy.after_auth_value(SHA256, auth_policy)
index = tpm.index("An index with this policy", BY_POLICY, auth_policy)
prepared = tpm.writing(index, DATA, Use(session, demand=AUTH_VALUE))
tpm.locality_is(1)
tpm.asserts(
    "The assertions of the policy, in order",
    tpm.pcrs(session, PCR_16),
    tpm.locality(session, AT_LOCALITY_1),
    tpm.command_code(session, CC.NV_Write),
    tpm.secret(session, OWNER, of=RH_OWNER, cp_hash=tpm.cp_hash(prepared)),
    tpm.auth_value_told(session),
)
tpm.does("TPM2_NV_Write", prepared)
tpm.locality_is(0)

tpm.flushed(session, bound)
