"""Makes nv_first_index.tpm. A first NV index: 01000001, with SHA-256, AUTHWRITE and AUTHREAD
(attributes 00040004), eight bytes and the authorization value "a".
"""

from tests.common.vocabulary import area, BY_VALUE, FIRST, RH_OWNER, Teller

tpm = Teller(__name__, __doc__)
PUBLIC, WHOLE = area(FIRST, BY_VALUE), b"aBCD\xff\xff\xffz"

defining = tpm.defining(PUBLIC, auth=b"a")
assert defining.buffer() == bytes.fromhex(
    "8002 0000002E 0000012A 40000001 00000009 40000009 0000 01 0000"
    "0001 61 000E 01000001 000B 00040004 0000 0008"
)

tpm.define("TPM2_NV_DefineSpace by the owner, whose value is empty", PUBLIC, auth=b"a")
tpm.fails("TPM2_NV_DefineSpace of the same index again: NV_DEFINED", defining)
tpm.is_now("TPM2_NV_ReadPublic, which needs no authorization", FIRST)
tpm("TPM2_NV_Read before the first write: NV_UNINITIALIZED").reading(FIRST, 8)

said = tpm('TPM2_NV_Write of a byte, 5A, at offset 2, by the password "a"')
said.writing(FIRST, b"\x5a", offset=2)
tpm("TPM2_NV_Read of all: what was not written is FF").reading(FIRST, 8)
assert tpm.last.response == bytes.fromhex(
    "8002 0000001D 00000000 0000000A 0008 FFFF5AFFFFFFFFFF 0000 01 0000"
)
tpm.is_now("TPM2_NV_ReadPublic: it has WRITTEN now, and so another Name", FIRST)
tpm("TPM2_NV_Write of eight bytes at offset 1: NV_RANGE").writing(FIRST, bytes(8), offset=1)
tpm("TPM2_NV_WriteLock, without WRITEDEFINE and WRITE_STCLEAR: ATTRIBUTES/h2").write_locking(FIRST)
tpm("TPM2_NV_ReadLock, without READ_STCLEAR: ATTRIBUTES/h2").read_locking(FIRST)
tpm.read("The public area is unchanged", FIRST, b"\xff\xff\x5a\xff\xff\xff\xff\xff")

tpm.chapter("The index is written piece by piece.")
for what, data, offset in (
    ("TPM2_NV_Write at the end", b"z", 7),
    ("TPM2_NV_Write at the beginning", b"abc", 0),
    ("Across what is written", b"BCD", 1),
    ("No bytes, in the middle", b"", 4),
    ("No bytes, after the last", b"", 8),
):
    tpm(what).writing(FIRST, data, offset=offset)
tpm.read("TPM2_NV_Read", FIRST, WHOLE)
tpm.read("A piece", FIRST, WHOLE[1:4], offset=1)
tpm.read("The last byte", FIRST, WHOLE[7:], offset=7)
tpm.read("No bytes", FIRST, b"")
tpm.read("No bytes, after the last", FIRST, b"", offset=8)
AT_END, FAR = ((1, 8), (0, 9)), (1024, 0xFFFF)
tpm.fails(
    "TPM2_NV_Read past the end: of nine bytes, of eight at 1, of one at 8, of none at 9, and of "
    "1,024 at FFFF: NV_RANGE",
    *(tpm.reading(FIRST, size, offset=at) for size, at in ((9, 0), (8, 1), *AT_END, FAR)),
)
tpm.fails(
    "TPM2_NV_Write past the end: of nine bytes, of one at 8, and of none at 9 and at FFFF: "
    "NV_RANGE",
    *(tpm.writing(FIRST, bytes(size), offset=at) for size, at in ((9, 0), *AT_END, (0, 0xFFFF))),
)

tpm.chapter("Passwords, and the owner, who has neither OWNERWRITE nor OWNERREAD.")
tpm("A wrong password of what is protected from guessing: AUTH_FAIL/s1").reading(FIRST, 8, b"b")
tpm("The empty password: AUTH_FAIL/s1").writing(FIRST, b"x", b"")
tpm.read("The right password with zeros after it", FIRST, WHOLE, b"a\0\0")
tpm("TPM2_NV_Read by the owner: NV_AUTHORIZATION").reading(FIRST, 8, by=RH_OWNER)
tpm("TPM2_NV_Write by the owner: NV_AUTHORIZATION").writing(FIRST, b"x", by=RH_OWNER)
tpm.fails("No sessions: AUTH_MISSING", tpm.reading(FIRST, 8).but(entries=[]))

tpm.chapter("The index survives a power cycle.")
tpm.power()
tpm("TPM2_NV_Read before TPM2_Startup: INITIALIZE").reading(FIRST, 8)
tpm.startup()
tpm.read("TPM2_NV_Read", FIRST, WHOLE)
tpm.is_now("TPM2_NV_ReadPublic", FIRST)
tpm("TPM2_NV_UndefineSpace by the owner").undefining(FIRST)
tpm("TPM2_NV_ReadPublic: HANDLE/h1").index_public(FIRST)
tpm.define("The index is defined again, and empty", PUBLIC)
tpm("TPM2_NV_Read: NV_UNINITIALIZED").reading(FIRST, 8)
