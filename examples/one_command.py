"""Makes one_command.tpm. An administrator lets a technician do one thing to a computer: write one
value to one NV index, once. The technician gets no password. The permission is a cpHash: the hash
of a command's code, of the Names of its handles and of its parameters.
"""

from tpmsim.caller import area
from tpmsim.standard import command_hash, name_of, policy, RH_OWNER, SHA256
from tpmsim.standard.nv import Attribute
from tests.common.script_caller import FIRST
from tests.common.teller import Example

OWNER_AUTH = b"administrator"
OLD, NEW, OTHER = b"boot=disk   ", b"boot=network", b"boot=usb    "

tpm = Example(__name__, __doc__)

tpm.chapter("THE ADMINISTRATOR DEFINES THE INDEX, once.")
tpm.startup()
tpm('TPM2_HierarchyChangeAuth of ownerAuth to "administrator"').change_auth(
    RH_OWNER, OWNER_AUTH, b""
)
by_owner = policy.after_secret(SHA256, bytes(32), name_of(RH_OWNER), b"")
attributes = Attribute.OWNERWRITE | Attribute.POLICYWRITE | Attribute.AUTHREAD | Attribute.NO_DA
public = area(FIRST, attributes, size=len(OLD), auth_policy=by_owner)
tpm(
    "TPM2_NV_DefineSpace of index 01000001 with OWNERWRITE, POLICYWRITE, AUTHREAD and NO_DA "
    "(0204000A). Its policy is TPM2_PolicySecret of TPM_RH_OWNER: SHA-256 of SHA-256 of 32 zeros, "
    "00000151 and 40000001. Whoever knows ownerAuth can decide what is written"
).define(public, OWNER_AUTH)
tpm("TPM2_NV_Write of the first value").writing(FIRST, OLD, OWNER_AUTH, by=RH_OWNER)

tpm.chapter("THE TECHNICIAN STARTS A SESSION, and asks the administrator to approve a command.")
session = tpm.policy("TPM2_StartAuthSession of the policy session 03000000")


def write(data):
    return tpm.writing(FIRST, data, session)


def hash_of(prepared):
    """Returns the cpHash: the hash of the command's code, the Names of both handles, and the
    parameters as they are sent.
    """
    names = map(tpm.name, prepared.handles)
    return command_hash(SHA256, prepared.code, names, prepared.parameters)


approved = hash_of(write(NEW))
tpm.chapter(
    "The cpHash of that TPM2_NV_Write is SHA-256 of 00000137, twice the Name of the index, and "
    'the parameters: 000C, "boot=network" and 0000.'
)

tpm.chapter("THE ADMINISTRATOR APPROVES only this command in that session.")
said = tpm("TPM2_PolicySecret of TPM_RH_OWNER, with the password, and that cpHash as cpHashA")
said.accepted(tpm.secret(session, OWNER_AUTH, of=RH_OWNER, cp_hash=approved))
tpm.digest_is("TPM2_PolicyGetDigest: the digest is the authPolicy", session, by_owner)

tpm.chapter("THE TECHNICIAN has a session for one command.")
tpm.fails("TPM2_NV_Write of another value: POLICY_FAIL/s1", write(OTHER))
said = tpm("TPM2_NV_Write of the right value at another offset: POLICY_FAIL/s1")
said.fails(tpm.writing(FIRST, NEW[:-1], session, offset=1))
tpm.does("TPM2_NV_Write of the approved value", write(NEW))
tpm.fails("The same command again, after the approval was used: POLICY_FAIL/s1", write(NEW))
tpm.read("TPM2_NV_Read with the empty password", FIRST, NEW)

tpm.chapter(
    "TPM2_PolicyCpHash states the same condition, and also hashes it into the digest. It must not "
    "contradict the recorded cpHash: after the approval of another command it is refused, even in "
    "a trial session."
)
said = tpm("TPM2_PolicySecret approves the command that writes the first value")
said.accepted(tpm.secret(session, OWNER_AUTH, of=RH_OWNER, cp_hash=hash_of(write(OLD))))
before = tpm.cp_hash_told(session, approved)
tpm.says("TPM2_PolicyCpHash of the command that was approved before: CPHASH", before)
tpm("TPM2_PolicyCpHash of the command that is approved now").cp_hash_told(
    session, hash_of(write(OLD))
)
tpm(
    "TPM2_NV_Write has the right cpHash, but the session now has another digest. The index cannot "
    "have this digest as its authPolicy: the authPolicy is in the Name, and the Name is in cpHash: "
    "POLICY_FAIL/s1"
).fails(write(OLD))
tpm("TPM2_PolicyRestart removes both assertions").restart(session)
said = tpm("TPM2_PolicySecret alone approves the command once more")
said.accepted(tpm.secret(session, OWNER_AUTH, of=RH_OWNER, cp_hash=hash_of(write(OLD))))
tpm.does("TPM2_NV_Write of the first value", write(OLD))
