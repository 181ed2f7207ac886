"""Makes disk_unlock.tpm. The TPM unlocks an encrypted disk if the computer was started with the
enrolled software, as with systemd-cryptenroll and clevis for LUKS. Their storage key is an ECC or
RSA key. Here it is an AES key, but the steps are the same.
"""

import hashlib
from dataclasses import replace

from tpmsim.caller import flipped, HERE, sealed
from tpmsim.standard import digest, policy, selection, SHA256
from tpmsim.standard.objects import Attribute
from tests.common.teller import Example

# Each piece of software is measured into its PCR before it runs, as the boot loader and the stub of
# a unified kernel image do. The policy uses PCRs 7 and 11, like `--tpm2-pcrs=7+11`.
FIRMWARE = (0, "The firmware is measured into PCR 0", b"firmware 1.0")
SECURE_BOOT = (7, "The state of secure boot, on, is measured into PCR 7", b"secure boot on")
LOADER = (4, "The boot loader is measured into PCR 4", b"boot loader")
KERNEL = (11, "The kernel and its initrd are measured into PCR 11", b"kernel 6.1 and initrd")
ENTER = (11, 'The entry into the initrd, "enter-initrd", is measured into PCR 11', b"enter-initrd")
LEAVE = (11, 'The end of the initrd, "leave-initrd", is measured into PCR 11', b"leave-initrd")
BOOT = (FIRMWARE, SECURE_BOOT, LOADER, KERNEL, ENTER)
CHOSEN = [(SHA256, [7, 11])]

DISK_KEY = hashlib.sha256(b"the volume key of a disk").digest()

tpm = Example(__name__, __doc__)


def value_behind(pcr, measurements):
    value = bytes(32)
    for measured, _, data in measurements:
        if measured == pcr:
            value = digest(SHA256, value + digest(SHA256, data))
    return value


def policy_of(measurements):
    """Returns the authPolicy: the policy digest after TPM2_PolicyPCR with the PCR values that
    result from these measurements.
    """
    values = b"".join(value_behind(pcr, measurements) for _, pcrs in CHOSEN for pcr in pcrs)
    values_digest = digest(SHA256, values)
    return policy.after_pcr(SHA256, bytes(32), selection(*CHOSEN), values_digest)


def start(measurements):
    tpm.power_cycle()
    tpm.chapter("The start of the computer is measured, here by TPM2_PCR_Event.")
    tpm.measure(*measurements)


tpm.chapter("ENROLMENT, once, on the running system. Its start was measured as follows.")
tpm.startup()
tpm.measure(*BOOT)

tpm.chapter(
    "TPM2_CreatePrimary makes the storage root key in the owner hierarchy, with the type SYMCIPHER "
    "(0025), SHA-256 (000B), the attributes fixedTPM, fixedParent, sensitiveDataOrigin, "
    "userWithAuth, noDA, restricted and decrypt (00030472), and AES-128 in mode CFB. The key is "
    "not stored anywhere: the same template gives the same key again."
)
parent = tpm.storage_root(
    "The handle of the key is 80000000; the last buffer of the response is its Name"
)
name_at_enrolment = tpm.names[parent]

tpm.chapter(
    "The policy: a trial session computes the digest of TPM2_PolicyPCR for the present PCR 7 and "
    "11."
)
trial = tpm.trial("TPM2_StartAuthSession of type 03, TPM_SE_TRIAL, starts the session 03000000")
tpm("TPM2_PolicyPCR of PCR 7 and 11 of the SHA-256 bank").pcrs(trial, CHOSEN)
AUTH_POLICY = policy_of(BOOT)
tpm.digest_is("TPM2_PolicyGetDigest returns the authPolicy", trial, AUTH_POLICY)
tpm("TPM2_FlushContext of the trial session").flush(trial)

tpm.chapter(
    "The disk's key, 32 bytes, is added to the disk as a LUKS key slot, and is sealed under the "
    "storage root key. In TPM2_Create, inSensitive has no userAuth, and the 32 bytes as data. "
    "inPublic has the type KEYEDHASH (0008), SHA-256 (000B), the attributes fixedTPM, fixedParent "
    "and noDA (00000412), the authPolicy, and the scheme NULL (0010). Since userWithAuth is clear, "
    "only the policy authorizes the use of the key. creationPCR records the PCRs."
)
token = tpm.create(
    "The first two buffers of the response, outPrivate and outPublic, are written to the disk "
    "with the numbers of the PCRs, as the token of the key slot. Only this TPM can use the token",
    parent,
    sealed(attributes=HERE | Attribute.NO_DA, auth_policy=AUTH_POLICY),
    data=DISK_KEY,
    pcrs=CHOSEN,
)
tpm.flush_objects("TPM2_FlushContext of the storage root key. The TPM then stores nothing", parent)

tpm.chapter("THE NEXT START. All transient objects, sessions and PCR values are gone.")
start(BOOT)
tpm.chapter("In the initrd the unlocker reads the token, and makes the storage root key again.")
parent = tpm.storage_root("TPM2_CreatePrimary with the same template gives the same Name as before")
assert tpm.names[parent] == name_at_enrolment
handle = tpm.load("TPM2_Load of the token's two areas, as 80000001", parent, token)
tpm.flush_objects("TPM2_FlushContext of the storage root key, which is no longer needed", parent)
tpm("A password does not authorize, since userWithAuth is clear: AUTH_UNAVAILABLE").unsealing(
    handle
)
session = tpm.policy(
    "TPM2_StartAuthSession of type 01, TPM_SE_POLICY, starts the session 03000000. It is not "
    "bound, so its hmacs are empty. It is not salted, which needs an asymmetric key. So whoever "
    "listens between the processor and the TPM can read the unsealed key"
)
said = tpm("TPM2_PolicyPCR changes the session's digest to the authPolicy: SUCCESS")
said.says(tpm.pcrs(session, CHOSEN))
tpm.unseal("TPM2_Unseal returns the disk's key, which unlocks the disk", handle, DISK_KEY, session)

tpm.chapter(
    "Later software must not get the key. So PCR 11 is extended before the actual system starts."
)
tpm("Before that, somebody prepares a session with TPM2_PolicyPCR").pcrs(session, CHOSEN)
tpm.measure(LEAVE)
said = tpm("TPM2_Unseal in this session, after a PCR has changed: PCR_CHANGED")
said.refused(tpm.unsealing(handle, session))
tpm("TPM2_PolicyRestart").restart(session)
tpm("TPM2_PolicyPCR with the present values").pcrs(session, CHOSEN)
said = tpm("TPM2_Unseal with a digest that is not the authPolicy: POLICY_FAIL/s1")
said.refused(tpm.unsealing(handle, session))

tpm.chapter("ANOTHER START, with secure boot switched off. The disk stays locked.")
INSECURE = (7, "The state of secure boot, off, is measured into PCR 7", b"secure boot off")
start(INSECURE if it is SECURE_BOOT else it for it in BOOT)
tpm.forget(handle)
parent = tpm.storage_root(
    "TPM2_CreatePrimary of the storage root key, which does not depend on PCRs"
)
assert tpm.names[parent] == name_at_enrolment
handle = tpm.load("TPM2_Load, which does not depend on PCRs either", parent, token)
session = tpm.policy("TPM2_StartAuthSession")
tpm("TPM2_PolicyPCR").pcrs(session, CHOSEN)
tpm.refused("TPM2_Unseal: POLICY_FAIL/s1", tpm.unsealing(handle, session))
said = tpm("TPM2_Load with the empty policy in the token's public area: INTEGRITY/p1")
said.says(tpm.loading(parent, replace(token, public=replace(token.public, auth_policy=b""))))
said = tpm("TPM2_Load with one bit of the token's private area changed: INTEGRITY/p1")
said.says(tpm.loading(parent, replace(token, private=flipped(token.private))))
