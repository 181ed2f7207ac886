"""Makes disk_pin.tpm. A PIN of four digits has 10,000 values, which a computer can try in no time.
With a TPM such a PIN still protects a disk: the TPM counts failed tries, and after a few of them it
returns only LOCKOUT until time has passed. The standard calls this dictionary attack protection.
`wait MS` lets MS milliseconds pass before the next command.
"""

import hashlib

from tpmsim.caller import HERE, sealed
from tpmsim.standard import RH_LOCKOUT
from tpmsim.standard.objects import Attribute
from tests.common.teller import Example

DISK_KEY = hashlib.sha256(b"the volume key of a disk").digest()
PIN, RECOVERY = b"7391", b"a long recovery passphrase"
GUESSES = b"0000", b"1234", b"1111", b"2580", b"4711"
TEN_MINUTES = 600

tpm = Example(__name__, __doc__)


def guess(words, *pins):
    tpm.says(words, *(tpm.unsealing(disk, it) for it in pins))


def start_computer():
    """Starts the computer, and returns the handle of the disk's key, which must be loaded again
    after each power cycle.
    """
    tpm.power_cycle()
    parent = tpm.storage_root("TPM2_CreatePrimary of the storage root key: 80000000")
    return tpm.load("TPM2_Load of the disk's key: 80000001", parent, token)


tpm.chapter("THE OWNER SETS UP THE COMPUTER, once.")
tpm.startup()
tpm.chapter(
    "The owner sets how the TPM counts failed tries. TPM_RH_LOCKOUT (4000000A) authorizes the "
    "command; its authorization value, lockoutAuth, is empty on a new device. maxTries is 5: five "
    "failed tries lock the key. recoveryTime is 600 seconds: the TPM forgives a failed try every "
    "ten minutes. lockoutRecovery is 86,400 seconds: a wrong attempt on lockoutAuth disables "
    "lockoutAuth for a day."
)
tpm.set_protection(
    "TPM2_DictionaryAttackParameters with these three values", 5, TEN_MINUTES, 86_400
)
tpm(
    "TPM2_HierarchyChangeAuth gives TPM_RH_LOCKOUT a long passphrase, which the owner keeps in a "
    "drawer. With it the owner can end a lockout that a thief, or a child, has caused: SUCCESS"
).says(tpm.change_auth(RH_LOCKOUT, RECOVERY, b""))
tpm.auth_values[RH_LOCKOUT] = RECOVERY

tpm.chapter(
    "The disk's key is sealed with the PIN as its authorization value (userAuth). Its attributes "
    "are fixedTPM, fixedParent and userWithAuth (00000052). noDA is clear, so the TPM protects the "
    "key against guesses. The storage key above it has noDA, since everybody may use the storage "
    "key."
)
parent = tpm.storage_root("TPM2_CreatePrimary of the storage root key, 80000000")
token = tpm("TPM2_Create returns two areas, which are written to the disk").create(
    parent, sealed(attributes=HERE | Attribute.USER_WITH_AUTH), user_auth=PIN, data=DISK_KEY
)

tpm.chapter("EACH START asks for the PIN.")
disk = start_computer()
guess("The owner mistypes the PIN, which counts as a failed try: AUTH_FAIL/s1", b"7319")
tpm.unseal("TPM2_Unseal with the right PIN returns the disk's key", disk, DISK_KEY)
tpm.chapter("The failed try stays counted. Ten minutes later the TPM forgives it.")
tpm.wait(1000 * TEN_MINUTES)
tpm.unseal("TPM2_Unseal with the right PIN", disk, DISK_KEY)

tpm.chapter("THE COMPUTER IS STOLEN. The thief starts it, and guesses the PIN.")
disk = start_computer()
guess("Five popular PINs: AUTH_FAIL/s1", *GUESSES)
guess("The sixth guess is right, but the TPM does not even compare it: LOCKOUT", PIN)
tpm.chapter(
    "Switching the computer off and on does not help: the TPM keeps its count without power."
)
disk = start_computer()
guess("The right PIN is still refused: LOCKOUT", PIN)
tpm.chapter("Guessing lockoutAuth does not help either: the TPM allows one attempt a day.")
tpm("TPM2_DictionaryAttackLockReset with a guess: AUTH_FAIL/s1").lock_reset(b"password")
tpm("TPM2_DictionaryAttackLockReset with the next guess: LOCKOUT").lock_reset(b"letmein")
tpm.chapter(
    "Waiting helps: ten minutes allow one guess. But all 10,000 guesses would take 69 days, and a "
    "PIN of six digits 19 years."
)
tpm.wait(1000 * TEN_MINUTES - 1)
guess("A guess one millisecond too early: LOCKOUT", b"9999")
tpm.wait(1)
guess("Then the TPM compares one guess: AUTH_FAIL/s1", b"9999")
guess("It compares no other guess, not even the right one: LOCKOUT", PIN)

tpm.chapter("THE COMPUTER IS BACK. The owner does not want to wait.")
said = tpm("The thief's guess has disabled lockoutAuth for the rest of that day: LOCKOUT")
said.says(tpm.lock_reset(RECOVERY))
tpm.wait(86_400_000 - 1000 * TEN_MINUTES)
tpm(
    "The next day, TPM2_DictionaryAttackLockReset with the passphrase forgives all tries: SUCCESS"
).says(tpm.lock_reset(RECOVERY))
tpm.unseal("TPM2_Unseal with the right PIN returns the disk's key", disk, DISK_KEY)
guess("The owner has all five tries again, and uses one of them: AUTH_FAIL/s1", b"7319")
tpm.unseal("TPM2_Unseal with the right PIN", disk, DISK_KEY)
