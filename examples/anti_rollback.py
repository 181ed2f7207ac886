"""Makes anti_rollback.tpm. An NV counter, which never decreases, contains the lowest version that
may start. The key of the disk is sealed for each image: the TPM returns the key only if the
measured image is that image, and its version is not below the counter. So nobody can start an old
image with a known fault again, although the image is authentic and its sealed key is still on the
disk.
"""

import hashlib

from tpmsim.caller import counter, HERE, sealed, storage_key
from tpmsim.standard import CC, digest, number, policy, RH_OWNER, RH_PLATFORM, selection, SHA256
from tpmsim.standard.nv import Attribute
from tpmsim.standard.objects import Attribute as ObjectAttribute
from tests.common.teller import Example

MINIMUM = 0x0140_0001
LESS_OR_EQUAL = 9
CHOSEN = [(SHA256, [11])]
IMAGES = {1: b"image, version 1", 2: b"image, version 2"}
DISK_KEY = hashlib.sha256(b"the volume key of a disk").digest()

tpm = Example(__name__, __doc__)
platform_auths = 0


def version_text(version):
    """Returns the eight bytes with which the policy compares the counter."""
    return number(version, 8)


def pcr_value(version):
    return digest(SHA256, bytes(32) + digest(SHA256, IMAGES[version]))


def policy_of(version):
    """Returns the policy that requires the image's value in PCR 11, and a counter that is not
    greater than the image's version.
    """
    values = digest(SHA256, pcr_value(version))
    after_pcr = policy.after_pcr(SHA256, bytes(32), selection(*CHOSEN), values)
    compared = version_text(version) + number(0, 2) + number(LESS_OR_EQUAL, 2)
    compared = hashlib.sha256(compared).digest()
    assertion = after_pcr + number(CC.PolicyNV, 4) + compared + tpm.names[MINIMUM]
    return hashlib.sha256(assertion).digest()


def start(version):
    """Executes the commands that the firmware and the boot loader send at each start."""
    tpm.power_cycle()
    said = tpm(f"The boot loader measures image {version} into PCR 11 and starts it")
    said.does(tpm.event(IMAGES[version], b"", pcr=11))


def hand_over():
    """Sets platformAuth, which is empty after TPM2_Startup, to a random value."""
    global platform_auths
    platform_auths += 1
    value = hashlib.sha256(b"platform %d" % platform_auths).digest()
    tpm(
        "Before the boot loader starts the image, it sets platformAuth to random bytes that it "
        "stores nowhere (TPM2_HierarchyChangeAuth). So no later software can act as the platform"
    ).does(tpm.change_auth(RH_PLATFORM, value, b""))
    del tpm.auth_values[RH_PLATFORM]


def compared(session, version):
    return tpm.comparing(session, MINIMUM, version_text(version), operation=LESS_OR_EQUAL)


def asserted(session, version):
    tpm("TPM2_PolicyPCR of PCR 11").pcrs(session, CHOSEN)
    said = tpm(f"TPM2_PolicyNV requires that the counter is less than or equal to {version}")
    said.does(compared(session, version))


def storage_root(
    what="TPM2_CreatePrimary makes the storage root key, which is the same at each start",
):
    return tpm.create_primary(what, RH_OWNER, storage_key())


def seal(parent, version, what):
    return tpm(what).create(
        parent,
        sealed(attributes=HERE | ObjectAttribute.NO_DA, auth_policy=policy_of(version)),
        data=DISK_KEY,
    )


def unlock(token, version):
    parent = storage_root()
    handle = tpm.load("TPM2_Load of the image's token", parent, token)
    tpm.flush_objects(
        "TPM2_FlushContext of the storage root key, which is no longer needed", parent
    )
    session = tpm.policy("TPM2_StartAuthSession of a policy session")
    asserted(session, version)
    tpm.unseal("TPM2_Unseal returns the disk's key", handle, DISK_KEY, session)
    tpm("The session is flushed").flush(session)
    tpm.flush_objects("The object is flushed", handle)


tpm.chapter("PROVISIONING, once, by the boot loader of a new computer.")
tpm.startup()
public = counter(
    MINIMUM, Attribute.PPWRITE | Attribute.AUTHREAD | Attribute.NO_DA | Attribute.PLATFORMCREATE
)
assert public.attributes == 0x4204_0011
tpm(
    "TPM2_NV_DefineSpace of the counter 01400001 by the platform, whose authorization value is "
    "empty. The counter has PPWRITE, AUTHREAD, NO_DA and PLATFORMCREATE (attributes 42040011). "
    "Only the platform can increment or remove it. Everybody can read it, since its own "
    "authorization value is empty"
).define(public, by=RH_PLATFORM)
tpm(
    "TPM2_NV_Increment by the platform. After this first write the index has the attribute "
    "WRITTEN, and therefore the Name that the policies will contain"
).does(tpm.incrementing(MINIMUM, by=RH_PLATFORM))
tpm.read(
    "TPM2_NV_Read with the index's empty password: the lowest version is 1", MINIMUM, number(1, 8)
)
tpm.is_now("TPM2_NV_ReadPublic returns the present Name", MINIMUM)

tpm.chapter("ENROLMENT of image 1, which is running.")
tpm("Image 1 was measured into PCR 11").event(IMAGES[1], b"", pcr=11)
hand_over()
parent = storage_root("TPM2_CreatePrimary makes the storage root key")
trial = tpm.trial("TPM2_StartAuthSession of a trial session, which computes the policy")
asserted(trial, 1)
tpm(
    "TPM2_PolicyGetDigest. The digest depends on the version, the operation 0009 (unsigned, less "
    "than or equal), and the Name of the index"
).digest_is(trial, policy_of(1))
tpm("The trial session is flushed").flush(trial)
token_1 = seal(
    parent,
    1,
    "TPM2_Create seals the disk's key with this authPolicy, and without userWithAuth. The "
    "returned areas are the token of image 1, which is written to the disk",
)
tpm.flush_objects("The storage root key is flushed", parent)

tpm.chapter("Software that runs after the boot loader cannot change the counter.")
said = tpm("TPM2_NV_Increment by the platform, with the earlier, empty password: BAD_AUTH/s1")
said.fails(tpm.incrementing(MINIMUM, by=RH_PLATFORM))
tpm(
    "TPM2_NV_Increment by the owner, although the index has no OWNERWRITE: NV_AUTHORIZATION"
).incrementing(MINIMUM, by=RH_OWNER)
tpm("TPM2_NV_Increment by the index itself, which has no AUTHWRITE: AUTH_UNAVAILABLE").incrementing(
    MINIMUM
)
tpm.fails("TPM2_NV_UndefineSpace by the owner: NV_AUTHORIZATION", tpm.undefining(MINIMUM))

tpm.chapter("A START with image 1. The disk is unlocked.")
start(1)
unlock(token_1, 1)
hand_over()

tpm.chapter(
    "THE UPDATE. Image 1 runs, and installs image 2. It seals the token of image 2 before image 2 "
    "ever runs: it knows the future value of PCR 11, and a trial session accepts any value."
)
parent = storage_root()
trial = tpm.trial("TPM2_StartAuthSession of a trial session")
said = tpm("TPM2_PolicyPCR of PCR 11, with the digest of the value after image 2")
said.pcrs(trial, CHOSEN, digest(SHA256, pcr_value(2)))
tpm.does("TPM2_PolicyNV requires that the counter is less than or equal to 2", compared(trial, 2))
tpm.digest_is("TPM2_PolicyGetDigest", trial, policy_of(2))
tpm("The trial session is flushed").flush(trial)
token_2 = seal(parent, 2, "TPM2_Create makes the token of image 2")

tpm.chapter("A START with image 2. The counter is still 1, so image 1 can still be started.")
start(2)
unlock(token_2, 2)
hand_over()
tpm.chapter("A START with image 1 again, for example because image 2 did not work.")
start(1)
unlock(token_1, 1)
hand_over()

tpm.chapter(
    "A START with image 2, which works and has recorded this. So the boot loader increments the "
    "counter."
)
start(2)
unlock(token_2, 2)
said = tpm("TPM2_NV_Increment by the platform, while the counter is below the version")
said.does(tpm.incrementing(MINIMUM, by=RH_PLATFORM))
tpm.read("TPM2_NV_Read: the lowest version is 2", MINIMUM, number(2, 8))
hand_over()

tpm.chapter(
    "ROLLBACK. Somebody installs image 1 and its token again, to use a fault that image 2 has "
    "repaired."
)
start(1)
parent = storage_root()
handle = tpm.load("TPM2_Load of the token of image 1", parent, token_1)
session = tpm.policy("TPM2_StartAuthSession")
tpm("TPM2_PolicyPCR of PCR 11").pcrs(session, CHOSEN)
tpm.fails("TPM2_PolicyNV: 2 is not less than or equal to 1: POLICY", compared(session, 1))
tpm.fails("TPM2_Unseal without this assertion: POLICY_FAIL/s1", tpm.unsealing(handle, session))
tpm.does("TPM2_PolicyNV with the version 2, which is true", compared(session, 2))
tpm("TPM2_Unseal, although the digest contains the other version: POLICY_FAIL/s1").unsealing(
    handle, session
)
other = tpm.load("TPM2_Load of the token of image 2", parent, token_2)
tpm.fails(
    "TPM2_Unseal of that token, while PCR 11 contains image 1: POLICY_FAIL/s1",
    tpm.unsealing(other, session),
)
hand_over()

tpm.chapter("A START with image 2. The disk is unlocked as before.")
tpm.forget(parent, handle, other)
start(2)
unlock(token_2, 2)

tpm.chapter("Not even the platform can decrease the counter.")
tpm("TPM2_NV_UndefineSpace by the platform").undefining(MINIMUM, by=RH_PLATFORM)
tpm.define("TPM2_NV_DefineSpace of the same index", public, by=RH_PLATFORM)
said = tpm(
    "TPM2_NV_Increment: a new counter begins above the largest value that any counter ever had"
)
said.does(tpm.incrementing(MINIMUM, by=RH_PLATFORM))
said = tpm("TPM2_NV_Read: the counter is 3, so only a newer image can be started")
said.read(MINIMUM, number(3, 8))
session = tpm.policy("TPM2_StartAuthSession")
tpm("TPM2_PolicyPCR of PCR 11").pcrs(session, CHOSEN)
tpm.fails("TPM2_PolicyNV: 3 is not less than or equal to 2: POLICY", compared(session, 2))
