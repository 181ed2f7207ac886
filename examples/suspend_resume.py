"""Makes suspend_resume.tpm. A laptop sleeps (ACPI state S3): the memory keeps its content, but the
TPM loses its power and its PCRs. The software in memory continues where it stopped. It was measured
when it started, and is not measured again. So the operating system asks the TPM to save the PCRs
before the laptop sleeps, and later the firmware asks the TPM to restore them.
"""

import hashlib

from tpmsim.caller import CLEAR, HERE, sealed, STATE
from tpmsim.standard import SHA256
from tpmsim.standard.objects import Attribute
from tests.common.teller import Example

KEY = hashlib.sha256(b"the key of a user's home directory").digest()
BOOT = (
    (0, "The firmware is measured into PCR 0", b"firmware 1.0"),
    (4, "The boot loader is measured into PCR 4", b"boot loader"),
    (11, "The kernel is measured into PCR 11", b"kernel 6.1"),
)
CHOSEN = [(SHA256, [0, 4, 11])]

tpm = Example(__name__, __doc__)


def boot():
    tpm.chapter("The start of the laptop is measured, here by TPM2_PCR_Event.")
    tpm.measure(*BOOT)


def load_key():
    """Loads the home directory's key, which is sealed to the PCR values after the start."""
    parent = tpm.storage_root("TPM2_CreatePrimary of the storage key")
    handle = tpm.load("TPM2_Load of the sealed key", parent, token)
    tpm.flush_objects("TPM2_FlushContext of the storage key", parent)
    return handle


def unlock(outcome, handle):
    """Unseals with a policy session. This succeeds if the PCRs have the same values as at
    enrolment.
    """
    session = tpm.policy("TPM2_StartAuthSession of a policy session")
    tpm("TPM2_PolicyPCR of PCR 0, 4 and 11").pcrs(session, CHOSEN)
    if outcome == "SUCCESS":
        tpm.unseal("TPM2_Unseal returns the key", handle, KEY, session)
    else:
        tpm.fails(f"TPM2_Unseal: {outcome}", tpm.unsealing(handle, session))


def sealed_key():
    """Returns the response of TPM2_Create for the current PCRs."""
    trial = tpm.trial("TPM2_StartAuthSession of a trial session, which computes the policy")
    tpm("TPM2_PolicyPCR of PCR 0, 4 and 11").pcrs(trial, CHOSEN)
    answer = tpm.does("TPM2_PolicyGetDigest", tpm.get_digest(trial))
    tpm("TPM2_FlushContext").flush(trial)
    parent = tpm.storage_root("TPM2_CreatePrimary of the storage key")
    made = tpm("TPM2_Create of the sealed key, with this policy").create(
        parent, sealed(attributes=HERE | Attribute.NO_DA, auth_policy=answer[2:]), data=KEY
    )
    tpm.flush_objects("TPM2_FlushContext of the storage key", parent)
    return made


tpm.chapter("THE LAPTOP IS STARTED.")
tpm.start_up("TPM2_Startup(CLEAR), by the firmware")
boot()
tpm.chapter("A key for the user's home directory is sealed to these measurements.")
token = sealed_key()
key = load_key()
unlock("SUCCESS", key)

tpm.chapter(
    "THE LAPTOP GOES TO SLEEP. The operating system's last command is TPM2_Shutdown(STATE)."
)
tpm("TPM2_Shutdown of STATE (0001) saves PCR 0 to 15").shutting_down(STATE)
tpm.chapter("The TPM loses its power, and gets it back.")
tpm.power()
tpm.chapter("THE LAPTOP WAKES UP. The firmware knows from the mainboard that this is no new start.")
tpm.start_up("TPM2_Startup of STATE (0001) restores the PCRs", STATE)
tpm("TPM2_PCR_Read of PCR 11").read_pcr(11)
tpm(
    "TPM2_ReadClock returns two times in milliseconds; resetCount, which stays 1, since this was "
    "no reset; and restartCount, which is 1"
).does(tpm.clock())
tpm.chapter(
    "Sessions and objects do not survive. The operating system loads the objects that it needs."
)
tpm.fails("The key's old handle: REFERENCE_H0", tpm.public(key))
key = load_key()
unlock("SUCCESS", key)

tpm.chapter(
    "WHAT IF SOMETHING HAPPENS IN BETWEEN? Every command that changes the TPM cancels the saved "
    "state, so that nobody can restore outdated PCRs."
)
tpm("TPM2_Shutdown(STATE)").shutting_down(STATE)
tpm.measure((11, "After TPM2_Shutdown, something is measured into PCR 11", b"late"))
tpm.power()
tpm.fails("TPM2_Startup(STATE): VALUE/p1", tpm.starting(STATE))
tpm.chapter("The firmware can then only start the laptop again, as if it had been switched off.")
tpm.start_up("TPM2_Startup(CLEAR)", CLEAR)
boot()
key = load_key()
unlock("SUCCESS", key)

tpm.chapter(
    "WHAT IF A THIEF WAKES THE LAPTOP WITH ANOTHER SYSTEM? If the firmware starts from the "
    "beginning, it sends TPM2_Startup(CLEAR). Then PCR 0 to 15 are zeros, whatever was saved."
)
tpm("TPM2_Shutdown(STATE), when the laptop goes to sleep").shutting_down(STATE)
tpm.power()
tpm.start_up("TPM2_Startup(CLEAR)", CLEAR)
tpm.measure(
    (0, "The firmware is measured into PCR 0", b"firmware 1.0"),
    (4, "Another boot loader is measured into PCR 4", b"evil loader"),
)
key = load_key()
unlock("POLICY_FAIL/s1", key)
tpm.chapter("A later start does not get the saved state either.")
tpm.power()
tpm.fails("TPM2_Startup(STATE): VALUE/p1", tpm.starting(STATE))
