"""The TPM counts wrong PINs. After three of them it refuses every PIN, until an hour of device time has
passed, or until lockoutAuth resets the count.
"""

from tpmsim.caller import area, BY_VALUE, Caller, Refused
from tpmsim.device import Device
from tpmsim.standard import RH_LOCKOUT

PIN, WRONG, HOUR = b"7391", b"1234", 3_600


def read(tpm: Caller, index: int, pin: bytes) -> str:
    """Reads the index with a PIN, and returns the data or the reason for the refusal."""
    try:
        return tpm.send(tpm.reading(index, 8, pin))["data"].decode()
    except Refused as refused:
        return str(refused)


with Device() as device:
    tpm = Caller(device)
    tpm.start_up()
    tpm.call(
        "DictionaryAttackParameters",
        RH_LOCKOUT,
        newMaxTries=3,
        newRecoveryTime=HOUR,
        lockoutRecovery=24 * HOUR,
    )
    index = tpm.define(area(attributes=BY_VALUE, size=8), auth=PIN)
    tpm.send(tpm.writing(index, b"the data", PIN))
    print("The right PIN:", read(tpm, index, PIN))
    for _ in range(3):
        print("A wrong one:", read(tpm, index, WRONG))
    print("The right PIN:", read(tpm, index, PIN))

    device.wait(1000 * HOUR)
    print("An hour later:", read(tpm, index, PIN))
    print("A wrong one:", read(tpm, index, WRONG))
    print("The right PIN:", read(tpm, index, PIN))
    tpm.call("DictionaryAttackLockReset", RH_LOCKOUT)
    print("After a reset:", read(tpm, index, PIN))
