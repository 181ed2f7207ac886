"""Makes nv_counters.tpm. A new counter begins after the largest value that any counter ever had,
so that no value occurs twice. Index 01000002 has the attributes 00020012.
"""

from tests.common.vocabulary import area, BY_OWNER, counter, FIRST, FOURTH, number, NvAttribute
from tests.common.vocabulary import RH_OWNER, SECOND, SHA1, Teller, THIRD

tpm = Teller(__name__, __doc__)


def count(what, index, value, times=1):
    """Increments a counter `times` times, and reads it."""
    for words in (what, *[""] * (times - 1)):
        tpm(words).incrementing(index, by=RH_OWNER)
    tpm.read(f"The counter is {value}", index, number(value, 8), by=RH_OWNER)


def define(what, index, **more):
    tpm.define(what, counter(index, BY_OWNER, **more))


def define_again(what, index):
    tpm("TPM2_NV_UndefineSpace").undefining(index)
    define(what, index)


define("TPM2_NV_DefineSpace of 01000002", SECOND)
assert tpm.publics[SECOND].attributes == 0x0002_0012
said = tpm("TPM2_NV_Read before the first TPM2_NV_Increment: NV_UNINITIALIZED")
said.reading(SECOND, 8, by=RH_OWNER)
count("Three times TPM2_NV_Increment", SECOND, 3, times=3)
define_again("The index is defined again", SECOND)
tpm("TPM2_NV_Read: NV_UNINITIALIZED").reading(SECOND, 8, by=RH_OWNER)
count("TPM2_NV_Increment continues after 3", SECOND, 4)
assert tpm.last.response == bytes.fromhex(
    "8002 0000001D 00000000 0000000A 0008 0000000000000004 0000 01 0000"
)

tpm.chapter("Two counters at the same time.")
define("Another counter, of SHA-1", FIRST, algorithm=SHA1)
count("The second counter begins after the first one", FIRST, 5)
count("The first counter continues from its own value", SECOND, 5)
count("The first counter is incremented again", SECOND, 7, times=2)
count("The second counter continues too, with a value above the first one's", FIRST, 6)
define("A third counter", THIRD)
count("The third counter begins after the larger of the two", THIRD, 8)
count("The second counter again", FIRST, 7)
tpm("The third counter is undefined").undefining(THIRD)
define("A fourth counter", FOURTH)
count("The fourth counter begins after the third counter's value", FOURTH, 9)
count("The first counter is incremented", SECOND, 8)

tpm.chapter("A counter that is defined and not incremented changes nothing.")
define_again("01000004 again", FOURTH)
define_again("01000004 once more", FOURTH)
count("TPM2_NV_Increment", FOURTH, 10)

tpm.chapter("Across power cycles.")
tpm.power_cycle()
for index, value in ((FIRST, 7), (SECOND, 8), (FOURTH, 10)):
    tpm.read(f"The counter is {value}", index, number(value, 8), by=RH_OWNER)
count("The first counter", SECOND, 9)
define_again("Another counter again", FIRST)
tpm.power_cycle()
count("The new counter begins after the largest value", FIRST, 11)

tpm.chapter("TPM2_NV_Read reads parts of a counter, as of any index.")
tpm.read("The last byte", FIRST, b"\x0b", offset=7, by=RH_OWNER)
tpm.read("Four in the middle", FIRST, bytes(4), offset=2, by=RH_OWNER)
tpm("Past the end: NV_RANGE").reading(FIRST, 2, offset=7, by=RH_OWNER)

tpm.chapter("Indices of other types do not count.")
tpm.define("An ordinary index of eight bytes", area(THIRD, BY_OWNER))
tpm("TPM2_NV_Write of 255").writing(THIRD, number(255, 8), by=RH_OWNER)
tpm("TPM2_NV_Increment: ATTRIBUTES/h2").incrementing(THIRD, by=RH_OWNER)
define_again("01000001 again", FIRST)
count("TPM2_NV_Increment: the ordinary index does not matter", FIRST, 12)

tpm.chapter("Locked until the next start.")
tpm("TPM2_NV_UndefineSpace").undefining(FOURTH)
lockable = BY_OWNER | NvAttribute.WRITE_STCLEAR
tpm.define("A counter with WRITE_STCLEAR", counter(FOURTH, lockable))
count("TPM2_NV_Increment", FOURTH, 13)
tpm("TPM2_NV_WriteLock").write_locking(FOURTH, by=RH_OWNER)
tpm("TPM2_NV_Increment: NV_LOCKED").incrementing(FOURTH, by=RH_OWNER)
tpm.read("The counter is unchanged", FOURTH, number(13, 8), by=RH_OWNER)
tpm.power_cycle()
count("TPM2_NV_Increment after the next start", FOURTH, 14)
