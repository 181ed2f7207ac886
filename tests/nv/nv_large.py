"""Makes nv_large.tpm. 1,024 bytes are written and read at once; an index of 2,048 bytes needs two
commands.
"""

import hashlib
from functools import partial

from tests.common.vocabulary import area, BY_OWNER, FIRST, number, NvAttribute, RH_OWNER, SECOND
from tests.common.vocabulary import Teller, THIRD

tpm = Teller(__name__, __doc__)
writing, reading, read = (partial(it, by=RH_OWNER) for it in (tpm.writing, tpm.reading, tpm.read))


def some(size, seed=b""):
    """Returns this many bytes, without repeated blocks."""
    digests = (hashlib.sha256(seed + number(it, 4)).digest() for it in range(size // 32 + 1))
    return b"".join(digests)[:size]


def write(what, *those, **where):
    tpm.does(what, writing(*those, **where))


tpm.chapter("An index of 1,024 bytes.")
tpm.define("TPM2_NV_DefineSpace", area(FIRST, BY_OWNER, size=1024))
data = some(1024)
write("TPM2_NV_Write of all", FIRST, data)
read("TPM2_NV_Read of all", FIRST, data)
read("TPM2_NV_Read of the second half", FIRST, data[512:], offset=512)

tpm.chapter("An index of 2,048 bytes.")
tpm.define("TPM2_NV_DefineSpace", area(SECOND, BY_OWNER, size=2048))
whole = some(2048, b"large")
write("TPM2_NV_Write of the second half", SECOND, whole[1024:], offset=1024)
read("TPM2_NV_Read of the first, which is FF", SECOND, b"\xff" * 1024)
write("TPM2_NV_Write of the first half", SECOND, whole[:1024])
read("TPM2_NV_Read of the first half", SECOND, whole[:1024])
read("Of the second half", SECOND, whole[1024:], offset=1024)
read("Across the middle", SECOND, whole[512:1536], offset=512)
read("The last byte", SECOND, whole[2047:], offset=2047)
write("TPM2_NV_Write across the middle", SECOND, data, offset=512)
whole = whole[:512] + data + whole[1536:]
read("TPM2_NV_Read of the first half", SECOND, whole[:1024])
read("Of the second half", SECOND, whole[1024:], offset=1024)

tpm.chapter("More than 1,024 bytes at once.")
case = "TPM2_NV_Write of 1,025 bytes: SIZE/p1"
tpm.fails(case, writing(SECOND, bytes(1025)), writing(FIRST, bytes(1025)))
tpm.fails(
    "TPM2_NV_Read of 1,025, of 2,048 and of FFFF bytes, also past the end: VALUE/p1",
    *(reading(SECOND, it) for it in (1025, 2048, 0xFFFF)),
    *(reading(SECOND, 1025, offset=2000), reading(FIRST, 1025)),
)
case = "TPM2_NV_Read of 1,024 bytes past the end: NV_RANGE"
tpm.fails(case, reading(SECOND, 1024, offset=1025), reading(FIRST, 1024, offset=1))
case = "TPM2_NV_Write of 1,024 bytes past the end: NV_RANGE"
tpm.fails(case, writing(SECOND, bytes(1024), offset=1025), writing(FIRST, bytes(1024), offset=1))
read("The first half is unchanged", FIRST, data)

tpm.chapter("WRITEALL: all bytes at once.")
public = area(THIRD, BY_OWNER | NvAttribute.WRITEALL, size=1024)
tpm.define("TPM2_NV_DefineSpace of 1,024 bytes", public)
tpm.fails(
    "TPM2_NV_Write of fewer bytes, and at another offset: NV_RANGE",
    *(writing(THIRD, bytes(size)) for size in (0, 1, 1023)),
    *(writing(THIRD, bytes(size), offset=at) for size, at in ((1023, 1), (1024, 1), (0, 1024))),
)
tpm("The index is not written: NV_UNINITIALIZED").reading(THIRD, 8, by=RH_OWNER)
write("TPM2_NV_Write of all", THIRD, data)
read("A piece of it can be read", THIRD, data[100:200], offset=100)
tpm.fails("TPM2_NV_Write of fewer bytes: NV_RANGE", writing(THIRD, b"x"))
write("TPM2_NV_Write of all again", THIRD, data[::-1])
read("TPM2_NV_Read", THIRD, data[::-1])
tpm("The index is undefined").undefining(THIRD)
said = tpm("An index of 1,025 bytes, which cannot be written at all")
said.define(area(THIRD, BY_OWNER | NvAttribute.WRITEALL, size=1025))
tpm("TPM2_NV_Write of 1,024 bytes: NV_RANGE").writing(THIRD, bytes(1024), by=RH_OWNER)
tpm("The index is undefined").undefining(THIRD)
tpm.define("An index of no bytes", area(THIRD, BY_OWNER | NvAttribute.WRITEALL, size=0))
tpm("TPM2_NV_Read: NV_UNINITIALIZED").reading(THIRD, 0, by=RH_OWNER)
tpm("TPM2_NV_Write of a byte: NV_RANGE").writing(THIRD, b"x", by=RH_OWNER)
write("TPM2_NV_Write of no bytes, which are all", THIRD, b"")
tpm.is_now("The index is written", THIRD)
read("TPM2_NV_Read of no bytes", THIRD, b"")
tpm("TPM2_NV_Read of one byte: NV_RANGE").reading(THIRD, 1, by=RH_OWNER)

tpm.chapter("After the next start.")
tpm.power_cycle()
read("The first index", FIRST, data)
read("The second index", SECOND, whole[:1024])
read("The second half of the second index", SECOND, whole[1024:], offset=1024)
read("The third index", THIRD, b"")
