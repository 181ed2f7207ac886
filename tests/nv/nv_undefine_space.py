"""Makes nv_undefine_space.tpm. TPM2_NV_UndefineSpace: the owner can remove its own indices, and
the platform can remove all.
"""

from tests.common.vocabulary import area, BY_OWNER, BY_VALUE, CC, FIRST, NvAttribute, RH_ENDORSEMENT
from tests.common.vocabulary import RH_NULL, RH_OWNER, RH_PLATFORM, SECOND, Teller, THIRD

CREATED = NvAttribute.PLATFORMCREATE

tpm = Teller(__name__, __doc__)

tpm.define("An index of the owner's", area(FIRST, BY_VALUE), auth=b"a")
tpm.define("One of the platform's", area(SECOND, BY_VALUE | CREATED), auth=b"b", by=RH_PLATFORM)
tpm("Both indices are written").writing(FIRST, b"first")
tpm("").writing(SECOND, b"second")

tpm("The platform's by the owner: NV_AUTHORIZATION").undefining(SECOND)
tpm.read("The index still exists", SECOND, b"second")
tpm("The owner's by the owner, whatever its value is").undefining(FIRST)
tpm.fails(
    "What is gone: in TPM2_NV_UndefineSpace, TPM2_NV_Read and TPM2_NV_Write by the owner: "
    "HANDLE/h2",
    tpm.prepare(CC.NV_UndefineSpace, [RH_OWNER, FIRST], b"", b""),
    tpm.reading(FIRST, 1, by=RH_OWNER),
    tpm.writing(FIRST, b"x", by=RH_OWNER),
)
said = tpm("By the index itself, and in TPM2_NV_ReadPublic and TPM2_NV_ChangeAuth: HANDLE/h1")
said.fails(tpm.reading(FIRST, 1), tpm.index_public(FIRST), tpm.changing_auth(FIRST, b"x"))
tpm("The platform's by the platform").undefining(SECOND, by=RH_PLATFORM)

tpm.chapter("An index that is defined again is new.")
tpm.define("01000001, with another value", area(FIRST, BY_VALUE), auth=b"new")
tpm("The earlier value: AUTH_FAIL/s1").writing(FIRST, b"x", b"a")
tpm("TPM2_NV_Read: NV_UNINITIALIZED").reading(FIRST, 8)
tpm("TPM2_NV_Write of a byte").writing(FIRST, b"x")
tpm.read("TPM2_NV_Read returns nothing of the earlier data", FIRST, b"x" + b"\xff" * 7)
tpm("The platform also removes the owner's").undefining(FIRST, by=RH_PLATFORM)

tpm.chapter("Handles, and authorization values.")
tpm.define("An index of the owner's", area(FIRST, BY_OWNER | NvAttribute.AUTHREAD), auth=b"a")
right = tpm.undefining(FIRST)
case = "authHandle that is an index, TPM_RH_ENDORSEMENT, TPM_RH_NULL, a PCR or a session: VALUE/h1"
others = FIRST, RH_ENDORSEMENT, RH_NULL, 0, 0x0300_0000
tpm.fails(case, *(right.but(handles=[it, FIRST]) for it in others))
said = tpm("nvIndex that is not an index: VALUE/h2")
said.fails(*(right.but(handles=[RH_OWNER, it]) for it in (RH_OWNER, 0, 0x8000_0000, 0x8100_0000)))
tpm.fails("An index that does not exist: HANDLE/h2", right.but(handles=[RH_OWNER, THIRD]))
tpm.fails("Without sessions: AUTH_MISSING", right.but(entries=[]))
tpm('ownerAuth becomes "abc"').change_auth(RH_OWNER, b"abc", b"")
said = tpm("By the empty password, and by the index's: BAD_AUTH/s1")
said.fails(right, tpm.undefining(FIRST, b"a"))
tpm.fails("A byte after the area: SIZE", tpm.undefining(FIRST).but(parameters=b"\0"))
tpm("By the right password").undefining(FIRST)

tpm.chapter("Sessions: one that is bound to the owner, and another one.")
bound = tpm.start("A session that is bound to TPM_RH_OWNER", bind=RH_OWNER)
tpm.define("An index, defined through it", area(FIRST, BY_VALUE), bound, auth=b"a")
of_index = tpm.start("A session that is bound to the index", bind=FIRST)
tpm("TPM2_NV_Write by it").writing(FIRST, b"x", of_index)
wrong = tpm.undefining(FIRST, bound)
tpm.fails("A wrong hmac: BAD_AUTH/s1", wrong.but_entry(1, hmac=bytes(32)))
said = tpm("TPM2_NV_UndefineSpace by the first; the second, whose index it is, is next to it")
said.undefining(FIRST, bound, of_index)
tpm("The second session still exists, and only encrypts").random(4, of_index)
said = tpm("The index is defined again, with the same value")
said.define(area(FIRST, BY_VALUE), bound, auth=b"a")
said = tpm("Its session is bound to it again, as Name and value are those of then")
said.writing(FIRST, b"x", of_index)
