"""Makes nv_types.tpm. Each type of index allows one change: an ordinary index is written, a
counter is incremented, bits are set, and an extend index is extended. Every other change is
refused, before and after the first write.
"""

from tests.common.vocabulary import area, bits, BY_OWNER, counter, digest, extended, FIRST, number
from tests.common.vocabulary import RH_OWNER, Teller

SECRET = b"8 bytes."

tpm = Teller(__name__, __doc__)


CHANGES = {
    "TPM2_NV_Write": lambda index: tpm.writing(index, SECRET, by=RH_OWNER),
    "TPM2_NV_Increment": lambda index: tpm.incrementing(index, by=RH_OWNER),
    "TPM2_NV_SetBits": lambda index: tpm.setting(index, 5, by=RH_OWNER),
    "TPM2_NV_Extend": lambda index: tpm.extending(index, SECRET, by=RH_OWNER),
}

# Each type, with the data that a read returns after the only change that the type allows. The
# types are in the same order as the changes.
TYPES = (
    ("An ordinary index", area, SECRET),
    ("A counter", counter, number(1, 8)),
    ("Bits", bits, number(5, 8)),
    ("An index that is extended", extended, digest(0x000B, bytes(32) + SECRET)),
)


def others(index, fitting):
    for what, change in CHANGES.items():
        if what != fitting:
            tpm.fails(f"{what}: ATTRIBUTES/h2", change(index))


for index, (fitting, (name, make, value)) in enumerate(zip(CHANGES, TYPES), FIRST):
    tpm.chapter(f"{name}.")
    tpm.define("TPM2_NV_DefineSpace", make(index, BY_OWNER))
    others(index, fitting)
    said = tpm("TPM2_NV_Read: it is not written yet: NV_UNINITIALIZED")
    said.reading(index, len(value), by=RH_OWNER)
    tpm.is_now("The index has none of the attributes that writes and locks set", index)
    tpm.does(fitting, CHANGES[fitting](index))
    tpm.read("TPM2_NV_Read", index, value, by=RH_OWNER)
    tpm.is_now("The index has WRITTEN", index)
    others(index, fitting)

    tpm.read("The data are unchanged", index, value, by=RH_OWNER)
    said = tpm("TPM2_NV_WriteLock, which none of the attributes allows: ATTRIBUTES/h2")
    said.write_locking(index, by=RH_OWNER)
    tpm("Nor TPM2_NV_ReadLock: ATTRIBUTES/h2").read_locking(index, by=RH_OWNER)
