"""A counter contains the lowest version that may start. A key is sealed for each version, and the
TPM returns it as long as the counter is not greater than that version. The counter never decreases,
even if its index is deleted and defined again.
"""

from tpmsim.caller import Caller, counter, digest_of, HERE, Refused, sealed, storage_key
from tpmsim.device import Device

KEY = b"the key of this version."
HERE_ALONE = dict(attributes=HERE)


def lowest(tpm: Caller, index: int) -> int:
    return int.from_bytes(tpm.call("NV_Read", index, index, size=8, offset=0)["data"], "big")


def policy_of(tpm: Caller, index: int, version: int) -> str:
    """Returns the policy that requires the counter to be at most this version."""
    return f"PolicyNV {tpm.names[index].hex()} {version:016x} 0 ule\n"


def unseal(tpm: Caller, index: int, version: int) -> str:
    """Returns the key that is sealed for a version, or the reason for the refusal."""
    words = policy_of(tpm, index, version)
    parent = tpm.create_primary(storage_key())
    made = tpm.create(parent, sealed(attributes=HERE, auth_policy=digest_of(words)), data=KEY)
    loaded = [parent, tpm.load(parent, made)]
    try:
        use = tpm.policy(words)
        loaded.append(use.session.handle)
        return tpm.send(tpm.unsealing(loaded[1], use))["outData"].decode()
    except Refused as refused:
        return str(refused)
    finally:
        for it in loaded:
            tpm.send(tpm.flush(it))


with Device() as device:
    tpm = Caller(device)
    tpm.start_up()
    index = tpm.define(counter())
    tpm.call("NV_Increment", index, index)
    first = lowest(tpm, index)
    print("Version 1:", unseal(tpm, index, first))
    tpm.call("NV_Increment", index, index)
    print("The counter went up by", lowest(tpm, index) - first)
    print("Version 1:", unseal(tpm, index, first))
    print("Version 2:", unseal(tpm, index, first + 1))

    device.power_cycle()
    tpm.start_up()
    print("After a power cycle, version 1:", unseal(tpm, index, first))
    tpm.send(tpm.undefining(index, b""))
    tpm.define(counter())
    tpm.call("NV_Increment", index, index)
    print("Defined anew it went up by", lowest(tpm, index) - first)
