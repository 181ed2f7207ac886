"""Makes nv_bits_and_extend.tpm. TPM2_NV_SetBits sets more and more bits of bit fields.
TPM2_NV_Extend extends indices like PCRs, each index with its own hash algorithm.
"""

from tests.common.vocabulary import bits, BY_OWNER, digest, digest_bytes, extended, FIRST, frames
from tests.common.vocabulary import HASHES, number, NvAttribute, RH_OWNER, SECOND, SHA1, Teller
from tests.common.vocabulary import THIRD

CLEARED = NvAttribute.CLEAR_STCLEAR

tpm = Teller(__name__, __doc__)


def set_bits(what, index, more, value):
    tpm(what).setting(index, more, by=RH_OWNER)
    tpm.read(f"The data are {value:X}", index, number(value, 8), by=RH_OWNER)


tpm.chapter("Bits.")
tpm.define("TPM2_NV_DefineSpace (attributes 00020022)", bits(FIRST, BY_OWNER))
tpm("TPM2_NV_Read before the first bit: NV_UNINITIALIZED").reading(FIRST, 8, by=RH_OWNER)
set_bits("TPM2_NV_SetBits of 1", FIRST, 1, 1)
set_bits("TPM2_NV_SetBits of 4", FIRST, 4, 5)
set_bits("TPM2_NV_SetBits of 4 again", FIRST, 4, 5)
set_bits("TPM2_NV_SetBits of no bit", FIRST, 0, 5)
set_bits("TPM2_NV_SetBits of the highest bit", FIRST, 1 << 63, 1 << 63 | 5)
set_bits("TPM2_NV_SetBits of all bits", FIRST, 2**64 - 1, 2**64 - 1)
said = tpm("Another index, of SHA-1, that each start clears")
said.define(bits(SECOND, BY_OWNER | CLEARED, algorithm=SHA1))
set_bits("TPM2_NV_SetBits of no bit writes the index", SECOND, 0, 0)
set_bits("TPM2_NV_SetBits of 8", SECOND, 8, 8)
wrong = tpm.setting(SECOND, 0, by=RH_OWNER)
said = tpm("Seven bytes, and none: INSUFFICIENT/p1")
said.fails(wrong.but(parameters=bytes(7)), wrong.but(parameters=b""))
tpm.fails("Nine bytes: SIZE", wrong.but(parameters=bytes(9)))

for index, (algorithm, name) in enumerate(HASHES, THIRD):
    tpm.chapter(f"An index that is extended, of {name}.")
    size = digest_bytes(algorithm)
    said = tpm(f"TPM2_NV_DefineSpace (attributes 00020042), of {size} bytes")
    said.define(extended(index, BY_OWNER, algorithm=algorithm))
    tpm("TPM2_NV_Read before the first: NV_UNINITIALIZED").reading(index, size, by=RH_OWNER)
    value = bytes(size)
    for what, data in (
        ('TPM2_NV_Extend by "abc", itself and not its digest', b"abc"),
        ("TPM2_NV_Extend by no bytes", b""),
        ("TPM2_NV_Extend by a digest", digest(algorithm, b"abc")),
        ("TPM2_NV_Extend by 1,024 bytes", bytes(1024)),
    ):
        tpm(what).extending(index, data, by=RH_OWNER)
        value = digest(algorithm, value + data)
        tpm.read(
            "The data are the digest of the earlier value and the parameter",
            index,
            value,
            by=RH_OWNER,
        )
    wrong = tpm.extending(index, bytes(1025), by=RH_OWNER)
    tpm.fails("TPM2_NV_Extend by 1,025 bytes: SIZE/p1", wrong)
    tpm.fails(
        "TPM2_NV_Extend by 1,024 bytes that are truncated: INSUFFICIENT/p1",
        wrong.but(parameters=b"\4\0" + bytes(1023)),
    )
    tpm.fails("A byte after the data: SIZE", wrong.but(parameters=frames.sized(b"abc") + b"d"))
    tpm.read("The data are unchanged", index, value, by=RH_OWNER)
    tpm.read("A piece of it", index, value[3:9], offset=3, by=RH_OWNER)

tpm.chapter(
    "At the next start the first index is unchanged, and the second is not written any more."
)
tpm.power_cycle()
tpm.read("TPM2_NV_Read of the first", FIRST, b"\xff" * 8, by=RH_OWNER)
tpm("TPM2_NV_Read of the second index: NV_UNINITIALIZED").reading(SECOND, 8, by=RH_OWNER)
set_bits("TPM2_NV_SetBits of 2 in the second", SECOND, 2, 2)
tpm.read("The last index keeps its data", index, value, by=RH_OWNER)
tpm('TPM2_NV_Extend by "next"').extending(index, b"next", by=RH_OWNER)
tpm.read(
    "The data are the digest of both values", index, digest(algorithm, value + b"next"), by=RH_OWNER
)
tpm("The index is undefined").undefining(index)
said = tpm("The index is defined so that each start clears it")
said.define(extended(index, BY_OWNER | CLEARED, algorithm=algorithm))
once = digest(algorithm, bytes(size) + b"next")
for what in ('TPM2_NV_Extend by "next"', "The same after the next start"):
    tpm(what).extending(index, b"next", by=RH_OWNER)
    tpm.read("The data are the digest of zeros and the parameter", index, once, by=RH_OWNER)

    tpm.power_cycle()
