"""Makes written_policies.tpm. Policies with branches, each of which is used once and refused once;
and other policies. tests/python/policy_audit.sh passes these policies in words to tools/audit.py.
"""

from tests.common.vocabulary import AUTH_VALUE, BY_OWNER, CC, digest, HERE, name_of, number
from tests.common.vocabulary import NvAttribute, ObjectAttribute, PASSWORD, policy, RH_ENDORSEMENT
from tests.common.vocabulary import RH_OWNER, selection, SHA1, SHA256, Use
from tests.sessions.grounds_caller import AFTER_AUTH_VALUE, after_code, GroundsCaller, PIN, SECRET
from tests.sessions.grounds_caller import ZEROS

USER = ObjectAttribute.USER_WITH_AUTH
CHOSEN = [(SHA256, [7, 11])]
SECURE_BOOT, KERNEL = b"secure boot on", b"kernel 6.1"
RECOVERY, REF = b"recovery", b"disk"
LEAST, VERSION, AT_LEAST, EQUAL = number(5, 8), number(6, 8), 7, 0
LOCALITY_0, LOCALITIES_3_AND_4 = 0b00001, 0b11000
OF_NO_COMMAND = b"\x11" * 32

tpm = GroundsCaller(__name__, __doc__, tries=True)
lost, asserts = tpm.lost, tpm.asserts

# The policy of a disk. It requires either the right PCRs 7 and 11 and the authorization value, or a
# recovery secret. In addition it requires that the command is TPM2_Unseal.
VALUES = [digest(SHA256, bytes(32) + digest(SHA256, it)) for it in (SECURE_BOOT, KERNEL)]
AFTER_PCRS = policy.after_pcr(SHA256, ZEROS, selection(*CHOSEN), digest(SHA256, b"".join(VALUES)))
BY_SYSTEM = policy.after_auth_value(SHA256, AFTER_PCRS)
WAYS = BY_SYSTEM, policy.after_secret(SHA256, ZEROS, name_of(RH_ENDORSEMENT), REF)
DISK = policy.after_command_code(SHA256, policy.after_or(SHA256, WAYS), CC.Unseal)


def system(tell=tpm.auth_value_told):
    return tpm.pcrs(session, CHOSEN), tell(session)


def recovery(session, of=RH_ENDORSEMENT, ref=REF):
    return tpm.secret(session, tpm.auth_value(of), of=of, policy_ref=ref)


def ends(session):
    """Returns the assertions that end both branches of the policy."""
    return tpm.branches(session, *WAYS), tpm.command_code(session, CC.Unseal)


def no_way(session, **demand):
    """Checks that the session satisfies neither branch."""
    tpm.says("TPM2_PolicyOR: VALUE/p1", ends(session)[0])
    asserts("TPM2_PolicyCommandCode", ends(session)[1])
    lost("TPM2_Unseal: POLICY_FAIL/s1", tpm.unsealing(disk, Use(session, **demand)))


# The policy of an update. It requires either the authorization value of an index, or a version in
# that index and one of the localities 0, 3 and 4.


def after_version(old=ZEROS):
    """Returns the digest after an assertion that the index contains at least the required version."""
    return policy.after_nv(SHA256, old, LEAST + number(0, 2) + number(AT_LEAST, 2), tpm.name(index))


def from_locality(localities=LOCALITY_0):
    return tpm.locality(session, localities), tpm.branches(session, *PLACES)


def compares(of, operand=LEAST, operation=AT_LEAST):
    return tpm.comparing(session, of, operand, operation=operation, by=RH_OWNER)


def other_comparisons():
    return (
        ("another index with the same data", compares(other)),
        ("another operand", compares(index, number(4, 8))),
        ("another comparison", compares(index, VERSION, EQUAL)),
    )


tpm("A recovery secret").change_auth(RH_ENDORSEMENT, RECOVERY, b"")
tpm("That secure boot is on, into PCR 7").event(SECURE_BOOT, b"", pcr=7)
tpm("The kernel, into PCR 11").event(KERNEL, b"", pcr=11)
attributes = NvAttribute.AUTHREAD | BY_OWNER
index, other = (tpm.index(it, attributes) for it in ("A version", "Another index"))
for it in (index, other):
    tpm("The index is written" if it == index else "").writing(it, VERSION, by=RH_OWNER)
PLACES = [policy.after_locality(SHA256, ZEROS, it) for it in (LOCALITY_0, LOCALITIES_3_AND_4)]
BY_INDEX = policy.after_secret(SHA256, ZEROS, tpm.name(index), b"")
UPDATES = after_version(policy.after_or(SHA256, PLACES)), BY_INDEX
NO_DA = ObjectAttribute.NO_DA
disk = tpm.sealed_object("The disk's key", DISK, HERE | NO_DA)
openly = tpm.sealed_object("The same, with userWithAuth", DISK, HERE | NO_DA | USER)
key = tpm.sealed_object("The key of the update", policy.after_or(SHA256, UPDATES))
session = tpm.policy("A policy session")
end = tpm.branches(session, *UPDATES)

tpm.chapter("THE DISK. By the system, and the value in the key of the hmac.")
asserts("TPM2_PolicyPCR, PolicyAuthValue, PolicyOR, PolicyCommandCode", *system())
asserts("", *ends(session))
tpm.unseal("TPM2_Unseal", disk, SECRET, Use(session, demand=AUTH_VALUE))
tpm.chapter("By the system, and the value in plain, as TPM2_PolicyPassword asks for.")
asserts("The same", *system(tpm.password_told), *ends(session))
tpm.unseal("TPM2_Unseal", disk, SECRET, Use(session, demand=PASSWORD))
tpm.chapter("By the recovery secret.")
asserts("TPM2_PolicySecret, PolicyOR, PolicyCommandCode", recovery(session), *ends(session))
tpm.unseal("TPM2_Unseal", disk, SECRET, session)

tpm.unseal("The other object is unsealed by its value alone", openly, SECRET, PIN)
restart = tpm.restart(session)
unsealing = lambda **demand: tpm.unsealing(disk, Use(session, **demand))
tpm.chapter("What is refused. A PCR is written after TPM2_PolicyPCR.")
asserts("By the system", *system(), *ends(session))
tpm("TPM2_PCR_Event of PCR 16").event(b"event", b"", pcr=16)
lost("TPM2_Unseal: PCR_CHANGED", unsealing(demand=AUTH_VALUE))
tpm.chapter("The value is another.")
asserts("By the system", restart, *system(), *ends(session))
use = Use(session, demand=AUTH_VALUE)
lost("TPM2_Unseal: BAD_AUTH/s1", tpm.with_key(b"other", tpm.unsealing, disk, use))
tpm.chapter("The session has counted for one command.")
asserts("The recovery secret", restart, recovery(session), *ends(session))
tpm.unseal("TPM2_Unseal", disk, SECRET, session)
lost("TPM2_Unseal once more: POLICY_FAIL/s1", unsealing())
tpm.chapter("It asserts all but the secret.")
no_way(session)
tpm.chapter("The secret was shown before TPM2_PolicyRestart.")
late = tpm.policy("Another policy session")
asserts("The recovery secret, TPM2_PolicyRestart", recovery(late), tpm.restart(late))
no_way(late)
tpm.flushed(late)
for words, shown in (
    ("of the owner", recovery(session, of=RH_OWNER)),
    ("for another policyRef", recovery(session, ref=b"tape")),
):
    tpm.chapter(f"The secret is that {words}.")
    asserts("TPM2_PolicyRestart, TPM2_PolicySecret", restart, shown)
    no_way(session)

tpm.chapter("PCR 11 is another at all.")
tpm("TPM2_PCR_Event of PCR 11").event(b"other", b"", pcr=11)
asserts("By the system", tpm.restart(session), *system())
no_way(session, demand=AUTH_VALUE)
tpm.chapter("The recovery secret still does.")
asserts("TPM2_PolicySecret", tpm.restart(session), recovery(session), *ends(session))
tpm.unseal("TPM2_Unseal", disk, SECRET, session)

for locality, localities in ((0, LOCALITY_0), (4, LOCALITIES_3_AND_4)):
    tpm.chapter(f"THE UPDATE. From locality {locality}, with a version that is high enough.")
    asserts("TPM2_PolicyLocality, PolicyOR", *from_locality(localities))
    asserts("TPM2_PolicyNV, PolicyOR", compares(index), end)
    tpm.locality_is(locality)
    tpm.unseal("TPM2_Unseal", key, SECRET, session)
    tpm.locality_is(0)
tpm.chapter("By the value of the index.")
asserts("TPM2_PolicySecret", recovery(session, of=index, ref=b""), end)
tpm.unseal("TPM2_Unseal", key, SECRET, session)

tpm.chapter("What is refused. The locality is another.")
asserts("TPM2_PolicyLocality, PolicyOR", *from_locality(LOCALITIES_3_AND_4))
asserts("TPM2_PolicyNV, PolicyOR", compares(index), end)
lost("TPM2_Unseal from locality 0: LOCALITY", tpm.unsealing(key, session))
for words, compared in other_comparisons():
    tpm.chapter(f"TPM2_PolicyNV with {words}.")
    asserts("TPM2_PolicyRestart", tpm.restart(session), *from_locality())
    asserts("TPM2_PolicyNV", compared)
    tpm.says("TPM2_PolicyOR: VALUE/p1", end)
    lost("TPM2_Unseal: POLICY_FAIL/s1", tpm.unsealing(key, session))
tpm.chapter("The version is not high enough, for who asks for one of 7.")
asserts("TPM2_PolicyRestart", tpm.restart(session), *from_locality())
tpm.says("TPM2_PolicyNV: POLICY", compares(index, number(7, 8)))
asserts("TPM2_PolicyRestart", tpm.restart(session))

tpm.flushed(openly, key)

tpm.chapter("OTHER POLICIES. A version alone.")
handle = tpm.sealed_object("An object with this policy", after_version())
for words, compared in other_comparisons():
    asserts(f"TPM2_PolicyNV with {words}", compared)
    lost("TPM2_Unseal: POLICY_FAIL/s1", tpm.unsealing(handle, session))
    asserts("TPM2_PolicyRestart", tpm.restart(session))
asserts("TPM2_PolicyNV", compares(index))
tpm.unseal("TPM2_Unseal", handle, SECRET, session)
tpm.flushed(handle)

tpm.chapter("A cpHash, which is that of no command.")
auth_policy = policy.after_cp_hash(SHA256, ZEROS, OF_NO_COMMAND)
handle = tpm.sealed_object("An object with this policy", auth_policy)
asserts("TPM2_PolicyCpHash", tpm.cp_hash_told(session, OF_NO_COMMAND))
lost("TPM2_Unseal: POLICY_FAIL/s1", tpm.unsealing(handle, session))
asserts("TPM2_PolicyRestart", tpm.restart(session))
tpm.chapter("An index is written once.")
auth_policy = policy.after_nv_written(SHA256, ZEROS, False)
index = tpm.index("It has this policy", NvAttribute.POLICYWRITE | BY_OWNER, auth_policy)
writes = (tpm.does, "TPM2_NV_Write"), (lost, "TPM2_NV_Write once more: POLICY_FAIL/s1")
for send, words in writes:
    asserts("TPM2_PolicyNvWritten of 0", tpm.written_told(session, False))
    send(words, tpm.writing(index, VERSION, session))
asserts("TPM2_PolicyRestart", tpm.restart(session))
tpm.chapter("An object of SHA-1, for one command.")
of_sha1 = tpm.sealed_object("It is created", after_code(CC.Unseal, SHA1), algorithm=SHA1)
session = tpm.policy("A policy session of SHA-1", algorithm=SHA1)
tpm.asserts_code(session)
tpm.unseal("TPM2_Unseal", of_sha1, SECRET, session)
lost("It has counted: TPM2_Unseal: POLICY_FAIL/s1", tpm.unsealing(of_sha1, session))
tpm.asserts_code(session, CC.HMAC)
lost("Another command: TPM2_Unseal: POLICY_CC/s1", tpm.unsealing(of_sha1, session))
tpm.sealed_object("An object with a policy that is not in words", AFTER_AUTH_VALUE)
