"""Makes nv_define_space.tpm. TPM2_NV_DefineSpace: the public areas that an index can have, and the
limit on the number of indices.
"""

import itertools

from tpmsim.model import nv_commands
from tpmsim.standard.nv import Type
from tests.common.vocabulary import area, bits, BY_OWNER, counter, digest_bytes, extended, FIRST
from tests.common.vocabulary import frames, HASHES, number, nv, NvAttribute, RH_ENDORSEMENT
from tests.common.vocabulary import RH_LOCKOUT, RH_NULL, RH_OWNER, RH_PLATFORM, SHA1, sized, Teller

CREATED, ANOTHER = NvAttribute.PLATFORMCREATE, 0x0100_0100

tpm = Teller(__name__, __doc__)


def fitting(what, public, **more):
    """Defines an index, which must succeed. Then reads its public area, and undefines the index."""
    by = more.get("by", RH_OWNER)
    tpm.define(what, public, **more)
    tpm.is_now("", public.index)
    tpm("").undefining(public.index, by=by)


def unfitting(words, *publics, **more):
    tpm.fails(words, *(tpm.defining(it, **more) for it in publics))


def raw(text):
    """Returns a TPM2_NV_DefineSpace with these parameters."""
    return tpm.defining(area()).but(parameters=text)


def handles():
    tpm.chapter("The owner and the platform can define indices.")
    case = "TPM_RH_ENDORSEMENT, TPM_RH_LOCKOUT, TPM_RH_NULL and TPM_RS_PW: VALUE/h1"
    others = RH_ENDORSEMENT, RH_LOCKOUT, RH_NULL, frames.RS_PW
    tpm.fails(case, *(tpm.defining(area(), b"", by=it) for it in others))
    others = 0, FIRST, 0x8000_0000, 0x8100_0000, 0x0200_0000
    case = "PCR 0, an index, objects and sessions: VALUE/h1"
    tpm.fails(case, *(tpm.defining(area(), b"", by=it) for it in others))
    tpm.fails("Without sessions: AUTH_MISSING", tpm.defining(area()).but(entries=[]))
    fitting("By the owner", area())
    case = "By the platform, with PLATFORMCREATE"
    fitting(case, area(attributes=BY_OWNER | CREATED), by=RH_PLATFORM)
    unfitting(
        "By the owner, with PLATFORMCREATE: ATTRIBUTES/p2", area(attributes=BY_OWNER | CREATED)
    )
    unfitting("By the platform, without PLATFORMCREATE: ATTRIBUTES/p2", area(), by=RH_PLATFORM)
    tpm('ownerAuth becomes "abc"').change_auth(RH_OWNER, b"abc", b"")
    tpm("By the empty password: BAD_AUTH/s1").defining(area(), b"")
    fitting("By the right password", area())
    tpm("ownerAuth is empty again").change_auth(RH_OWNER, b"", b"abc")


def sizes():
    for algorithm, name in HASHES:
        tpm.chapter(f"With {name}: sizes of auth, of authPolicy and of the data.")
        size = digest_bytes(algorithm)

        def of(make=area, **more):
            return make(algorithm=algorithm, **more)

        if algorithm == SHA1:
            unfitting("auth of 21 bytes: SIZE/p1", of(), auth=b"a" * 21)
            unfitting("Of 32: SIZE/p1", of(), auth=b"a" * 32)
        fitting(f"auth of {size} bytes", of(), auth=b"a" * size)
        fitting("auth of a byte, and zeros after it up to 32", of(), auth=b"a" + bytes(31))
        fitting("auth of 32 zeros", of(), auth=bytes(32))
        case = "authPolicy of any size but a digest's: SIZE/p2"
        unfitting(case, *(of(auth_policy=b"p" * it) for it in range(1, 33) if it != size))
        fitting("One of a digest's", of(auth_policy=b"p" * size))
        for make, name in ((counter, "A counter"), (bits, "Bits")):
            case = f"{name} of another size than eight bytes: SIZE/p2"
            unfitting(case, *(of(make, size=it) for it in (0, 7, 9, 16, 2048, 0xFFFF)))
            fitting(f"{name} of eight bytes", of(make))
        case = f"An index that is extended, of another size than {size} bytes: SIZE/p2"
        others = 0, 8, size - 1, size + 1, 52 - size, 2048
        unfitting(case, *(of(extended, size=it) for it in others))
        fitting(f"One of {size} bytes", of(extended))
        case = "An ordinary index of more than 2,048 bytes: SIZE/p2"
        unfitting(case, *(of(size=it) for it in (2049, 4096, 0xFFFF)))
        for each in (0, 1, 2048):
            fitting(f"Of {each} bytes", of(size=each))


tpm.chapter("The parameters: auth and publicInfo.")
good = sized(area().text)
said = tpm("auth that is cut: before its size, within it, and within its bytes: INSUFFICIENT/p1")
said.fails(*(raw(it) for it in (b"", b"\0", b"\0\1", b"\0\x20" + bytes(31))))
said = tpm("auth of 33 bytes, whole or cut, even if they are zeros: SIZE/p1")
said.fails(raw(sized(b"a" * 33) + good), raw(sized(bytes(33)) + good), raw(number(33, 2)))
empty = sized(b"")
case = "publicInfo that is cut: before its size, within it, and within its bytes: INSUFFICIENT/p2"
tpm.fails(case, *(raw(empty + it) for it in (b"", b"\0", good[:-1], b"\xff\xff")))
text = area().text
said = tpm("The size of publicInfo is too small for its fields: SIZE/p2")
said.fails(*(raw(empty + sized(text[:length])) for length in range(len(text))))
said = tpm("The size of publicInfo is too large, or dataSize is after publicInfo: SIZE/p2")
said.fails(raw(empty + sized(text + b"\0")), raw(empty + sized(text[:-2]) + text[-2:]))
tpm.fails("A byte after publicInfo: SIZE", raw(empty + good + b"\0"))
others = 0, 0x0000_0001, 0x0200_0001, RH_OWNER, 0x8100_0001, 0xFFFF_FFFF
unfitting("nvIndex that is no handle of an index: VALUE/p2", *map(area, others))
reserved = (1 << 8, 1 << 9, *(BY_OWNER | 1 << it for it in range(20, 25)))
for words, at, size, bad in (
    ("nameAlg: SHA-384, NULL and none: HASH/p2", 4, 2, (0x000C, 0x0010, 0)),
    ("Reserved attributes 8, 9 and 20 to 24: RESERVED_BITS/p2", 6, 4, reserved),
):
    texts = (text[:at] + number(it, size) + text[at + size :] for it in bad)
    tpm.fails(words, *(raw(empty + sized(it)) for it in texts))
said = tpm("authPolicy of 33 bytes: SIZE/p2")
said.fails(*(raw(empty + sized(area(auth_policy=it).text)) for it in (bytes(33), b"p" * 33)))
said = tpm("A wrong nvIndex is found before a wrong nameAlg, as they are read in order: VALUE/p2")
said.fails(raw(empty + sized(number(0, 6))))

handles()
sizes()

tpm.chapter("Types.")
case = "Every type but ordinary 0, counter 1, bits 2 and extend 4, whatever the size: ATTRIBUTES/p2"
unfitting(case, *(area(kind=it) for it in range(16) if it not in list(Type)))
tpm.chapter("Attributes.")
case = "POLICY_DELETE, WRITELOCKED, GLOBALLOCK, ORDERLY, READLOCKED and WRITTEN: ATTRIBUTES/p2"
later = (it for it in NvAttribute if it & nv_commands.NOT_DEFINED)
unfitting(case, *(area(attributes=BY_OWNER | it) for it in later))
case = "No attribute that allows to write: ATTRIBUTES/p2"
reads = 0, *(it for it in NvAttribute if it & nv.READS), nv.READS
unfitting(case, *(area(attributes=it) for it in reads))
writes = *(it for it in NvAttribute if it & nv.WRITES), nv.WRITES
unfitting("None that allows to read: ATTRIBUTES/p2", *(area(attributes=it) for it in writes))
clears = NvAttribute.CLEAR_STCLEAR
unfitting("A counter with CLEAR_STCLEAR: ATTRIBUTES/p2", counter(attributes=BY_OWNER | clears))
for make, name in ((bits, "Bits"), (extended, "An index that is extended,")):
    fitting(f"{name} with it", make(attributes=BY_OWNER | clears))
for each in NvAttribute:
    if each & nv.WRITES:
        fitting(f"{each.name} and OWNERREAD", area(attributes=each | NvAttribute.OWNERREAD))
    elif each & nv.READS:
        fitting(f"OWNERWRITE and {each.name}", area(attributes=each | NvAttribute.OWNERWRITE))
    elif not each & nv_commands.NOT_DEFINED and each != CREATED:
        fitting(f"OWNERWRITE, OWNERREAD and {each.name}", area(attributes=each | BY_OWNER))
every = nv.NAMED & ~nv_commands.NOT_DEFINED & ~CREATED & ~nv.of_type(nv.TYPE_MASK)
fitting("All of these", area(attributes=every))

tpm.chapter("Numbers of indices.")
for each in (0x0100_0000, 0x0140_0001, 0x01C0_0000, 0x01FF_FFFF):
    fitting(f"{each:08X}", area(each))
tpm.define("01000001", area())
unfitting("The same, or with anything else in it: NV_DEFINED", area(), counter())
unfitting("Also by the platform: NV_DEFINED", area(attributes=BY_OWNER | CREATED), by=RH_PLATFORM)
tpm("The index is undefined").undefining(FIRST)

tpm.chapter("There are at most 64 indices, by whomever they are defined.")
every = range(FIRST, FIRST + 64)
words = {FIRST: "64 of them, of eight bytes", FIRST + 32: "The 33rd of them"}
for index in every:
    by, created = (RH_PLATFORM, CREATED) if index % 2 else (RH_OWNER, 0)
    tpm.define(words.get(index, ""), area(index, BY_OWNER | created), by=by)
unfitting("A 65th, of eight bytes or of none: NV_SPACE", area(ANOTHER), area(ANOTHER, size=0))
unfitting("An index that exists: NV_DEFINED", area(FIRST + 1))
tpm.power_cycle()
unfitting("One more index after a power cycle: NV_SPACE", area(ANOTHER))
tpm("One index is undefined").undefining(FIRST + 7)
tpm.define("Another index is defined", area(ANOTHER))
unfitting("A second index cannot be defined: NV_SPACE", area(FIRST + 7))
for index in (*every, ANOTHER):
    if index != FIRST + 7:
        by = RH_PLATFORM if index in every and index % 2 else RH_OWNER
        what = "All are undefined" if index == FIRST else ""
        tpm(what).undefining(index, by=by)

tpm.chapter("All have at most 16,384 bytes, whether they are written or not.")
every = range(FIRST, FIRST + 8)
halves = list(itertools.product(every, (0, 1024)))
for index in every:
    tpm.define("" if index > FIRST else "Eight of 2,048 bytes", area(index, size=2048))
unfitting("A ninth, of a byte: NV_SPACE", area(FIRST + 8, size=1))
for index, half in halves:
    what = "All are written, each in two halves" if (index, half) == (FIRST, 0) else ""
    tpm(what).writing(index, bytes([index & 0xFF]) * 1024, offset=half)
unfitting("Another index, of a byte: NV_SPACE", area(FIRST + 8, size=1))
tpm("The second is undefined").undefining(FIRST + 1)
unfitting("One of 2,049 bytes: SIZE/p2", area(FIRST + 8, size=2049))
tpm.define("Two of 1,024 bytes are defined", area(FIRST + 8, size=1024))
tpm.define("", area(FIRST + 9, size=1024))
unfitting("One of a byte: NV_SPACE", area(FIRST + 1, size=1))
tpm.define("One of no bytes", area(FIRST + 1, size=0))
for index, half in halves:
    if index != FIRST + 1:
        what = "The others read as written" if (index, half) == (FIRST, 0) else ""
        tpm.read(what, index, bytes([index & 0xFF]) * 1024, offset=half)
tpm("The last one is undefined").undefining(FIRST + 9)
unfitting("One of 1,025 bytes: NV_SPACE", area(FIRST + 9, size=1025))
tpm.define("One of 1,016", area(FIRST + 9, size=1016))
unfitting("One of nine: NV_SPACE", area(FIRST + 10, size=9))
tpm.define("A counter, which fills the space", counter(FIRST + 10))
unfitting("Bits: NV_SPACE", bits(FIRST + 11))
unfitting("An index that is extended: NV_SPACE", extended(FIRST + 11))
