"""A disk's key is sealed to PCRs 7 and 11 and a PIN. It cannot be unsealed after PCR 11 has
changed. Then a second branch of its policy, which requires the owner's passphrase, recovers it.
"""

from tpmsim.caller import Caller, digest_of, HERE, Refused, sealed, storage_key
from tpmsim.device import Device
from tpmsim.standard import RH_OWNER, SHA256

DISK_KEY, PIN, PASSPHRASE = b"the key of a disk, of 32 bytes..", b"7391", b"kept in a drawer"
CHOSEN = [(SHA256, [7, 11])]


def policy_of(tpm: Caller) -> str:
    """Returns the policy in words, for the current values of the PCRs."""
    seven, eleven = tpm.call("PCR_Read", pcrSelectionIn=CHOSEN)["pcrValues"]
    return f"""
either
    PolicyPCR sha256:7={seven.hex()},11={eleven.hex()}
    PolicyPassword
or
    PolicySecret OWNER -
"""


def unseal(tpm: Caller, handle: int, policy: str) -> str:
    """Returns the disk's key, or the reason for the refusal."""
    try:
        use = tpm.policy(policy)
    except Refused as refused:
        return str(refused)
    try:
        return tpm.send(tpm.unsealing(handle, use))["outData"].decode()
    except Refused as refused:
        return str(refused)
    finally:
        tpm.send(tpm.flush(use.session.handle))


with Device() as device:
    tpm = Caller(device)
    tpm.start_up()
    tpm.call("HierarchyChangeAuth", RH_OWNER, newAuth=PASSPHRASE)
    tpm.auth_values[RH_OWNER] = PASSPHRASE
    tpm.call("PCR_Event", 7, eventData=b"secure boot is on")
    tpm.call("PCR_Event", 11, eventData=b"kernel and initrd")
    words = policy_of(tpm)

    parent = tpm.create_primary(storage_key(), PASSPHRASE)
    public = sealed(attributes=HERE, auth_policy=digest_of(words))
    disk = tpm.load(parent, tpm.create(parent, public, user_auth=PIN, data=DISK_KEY))
    print("With the PIN:", unseal(tpm, disk, words))

    tpm.auth_values[disk] = b"1234"
    print("With another PIN:", unseal(tpm, disk, words))
    tpm.auth_values[disk] = PIN

    tpm.call("PCR_Event", 11, eventData=b"the system is started")
    tpm.auth_values[RH_OWNER] = b"a guess"
    print("After PCR 11 moved on:", unseal(tpm, disk, words))
    tpm.auth_values[RH_OWNER] = PASSPHRASE
    print("With the passphrase:", unseal(tpm, disk, words))
