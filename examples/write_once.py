"""Makes write_once.tpm. A factory writes the record of a board into its TPM once, at the end of
the production line. From then on nobody can write it, whatever passwords they know, and everybody
can read it. TPM2_PolicyNvWritten makes this policy: a writer must find the index unwritten. Only
the platform, whose value the firmware sets at each start, can still remove the index.
"""

import hashlib

from tpmsim.caller import area
from tpmsim.standard import policy, RH_OWNER, RH_PLATFORM, SHA256
from tpmsim.standard.nv import Attribute
from tests.common.script_caller import FIRST
from tests.common.teller import Example

# The record that the factory writes: the serial number of a board, and the digest of its certificate.
RECORD = b"board 004711 " + hashlib.sha256(b"a certificate").digest()[:19]

tpm = Example(__name__, __doc__)

tpm.chapter("THE POLICY, computed once, on any device.")
tpm.startup()
trial = tpm.trial("TPM2_StartAuthSession of the trial session 03000000")
tpm(
    "TPM2_PolicyNvWritten of 0: when the policy authorizes, the index must not be written yet: "
    "SUCCESS"
).says(tpm.written_told(trial, False))
once = policy.after_nv_written(SHA256, bytes(32), False)
tpm(
    "TPM2_PolicyGetDigest returns SHA-256 of 32 zeros, 0000018F and 00: the authPolicy below"
).digest_is(trial, once)
tpm("TPM2_FlushContext of the trial session").flush(trial)

tpm.chapter("THE FACTORY.")
attributes = Attribute.PLATFORMCREATE | Attribute.POLICYWRITE | Attribute.AUTHREAD | Attribute.NO_DA
public = area(FIRST, attributes, size=len(RECORD), auth_policy=once)
tpm(
    "TPM2_NV_DefineSpace by TPM_RH_PLATFORM of index 01000001, with 32 bytes and that policy. Its "
    "attributes (42040008) are POLICYWRITE, so that only the policy authorizes writing; AUTHREAD "
    "with an empty password, so that everybody can read it; NO_DA; and PLATFORMCREATE, so that the "
    "owner cannot remove it"
).define(public, by=RH_PLATFORM)
session = tpm.policy("TPM2_StartAuthSession of the policy session 03000000")
tpm("TPM2_PolicyNvWritten of 0 in this session").written_told(session, False)
tpm("TPM2_NV_Write of the record").writing(FIRST, RECORD, session)
tpm.is_now("TPM2_NV_ReadPublic: the index now has WRITTEN (20000000), and another Name", FIRST)

tpm.chapter("NOBODY CAN WRITE IT AGAIN. The same assertion still gives the policy's digest.")
tpm("TPM2_PolicyNvWritten of 0").written_told(session, False)
tpm.digest_is("TPM2_PolicyGetDigest: the digest is the authPolicy", session, once)
tpm(
    "TPM2_NV_Write: when the session authorizes the command, the device checks the index, which is "
    "written: POLICY_FAIL/s1"
).fails(tpm.writing(FIRST, bytes(32), session))
tpm("TPM2_PolicyRestart").restart(session)
said = tpm("TPM2_PolicyNvWritten of 1, which is true, gives another digest: SUCCESS")
said.says(tpm.written_told(session, True))
tpm.fails("TPM2_NV_Write: POLICY_FAIL/s1", tpm.writing(FIRST, bytes(32), session))
tpm("TPM2_NV_Write by the index, which has no AUTHWRITE: AUTH_UNAVAILABLE").writing(
    FIRST, bytes(32)
)
for by, name in ((RH_OWNER, "the owner"), (RH_PLATFORM, "the platform")):
    said = tpm(f"TPM2_NV_Write by {name}, without OWNERWRITE and PPWRITE: NV_AUTHORIZATION")
    said.fails(tpm.writing(FIRST, bytes(32), by=by))
said = tpm("The owner cannot remove the index to define another one: NV_AUTHORIZATION")
said.fails(tpm.undefining(FIRST, by=RH_OWNER))

tpm.chapter("AT EACH START the index contains what the factory wrote.")
tpm.power_cycle()
tpm.read("TPM2_NV_Read with the empty password", FIRST, RECORD)
session = tpm.policy("TPM2_StartAuthSession of the policy session 03000000")
tpm("TPM2_PolicyNvWritten of 0").written_told(session, False)
tpm.fails("TPM2_NV_Write: POLICY_FAIL/s1", tpm.writing(FIRST, bytes(32), session))
