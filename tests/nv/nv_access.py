"""Makes nv_access.tpm. Each attribute for writing and reading by itself, with each kind of
authHandle: the owner, the platform, the index itself and another index. The entries are passwords,
not policies.
"""

from tests.common.vocabulary import area, bits, BY_POLICY, BY_VALUE, counter, extended, FIRST, LOCKS
from tests.common.vocabulary import nv, NvAttribute, RH_ENDORSEMENT, RH_LOCKOUT, RH_NULL, RH_OWNER
from tests.common.vocabulary import RH_PLATFORM, RS_PW, SECOND, Teller, THIRD

# Pairs of an attribute for writing and one for reading, with the entity that may then write and
# read.
ALLOWED = (
    (NvAttribute.OWNERWRITE, NvAttribute.OWNERREAD, "owner"),
    (NvAttribute.PPWRITE, NvAttribute.PPREAD, "platform"),
    (NvAttribute.AUTHWRITE, NvAttribute.AUTHREAD, "index"),
    (NvAttribute.POLICYWRITE, NvAttribute.POLICYREAD, "policy"),
)

ASKERS = (
    ("The owner", RH_OWNER, "owner"),
    ("The platform", RH_PLATFORM, "platform"),
    ("The index itself", None, "index"),
)

tpm = Teller(__name__, __doc__)


def refusal(asker, allowed):
    """Returns the outcome of a command that `asker` authorizes with a password, if only `allowed`
    may authorize it.
    """
    if asker == allowed:
        return "SUCCESS"
    return "AUTH_UNAVAILABLE" if asker == "index" else "NV_AUTHORIZATION"


def each_asker(what, allowed, prepare):
    for words, handle, asker in ASKERS:
        tpm.comes_to(f"{words}, {what}: {refusal(asker, allowed)}", prepare(handle))
    # An index cannot authorize a command on another index, even if its attributes let it authorize
    # commands on itself.
    tpm.fails(f"Another index that can be written, {what}: NV_AUTHORIZATION", prepare(SECOND))


tpm.define("Another index, which can be used by its value", area(SECOND, BY_VALUE), auth=b"b")
tpm("The index is written").writing(SECOND, b"other...")
for write, read, allowed in ALLOWED:
    tpm.chapter(f"{write.name} alone.")
    # All commands that change an index need the same attribute.
    for name, make, change in (
        ("An ordinary index", area, lambda it, by: tpm.writing(it, b"x", by=by)),
        ("A counter", counter, tpm.incrementing),
        ("Bits", bits, lambda it, by: tpm.setting(it, 1, by=by)),
        ("An index that is extended", extended, lambda it, by: tpm.extending(it, b"x", by=by)),
    ):
        said = tpm(f"{name} with {write.name} and all that allow to read")
        said.define(make(FIRST, write | nv.READS | LOCKS), auth=b"a")
        each_asker("TPM2_NV_WriteLock", allowed, lambda by: tpm.write_locking(FIRST, by=by))
        tpm.power_cycle()
        each_asker("its change", allowed, lambda by: change(FIRST, by=by))
        tpm.is_now("TPM2_NV_ReadPublic", FIRST, cleared=NvAttribute.WRITELOCKED)
        tpm("The index is undefined").undefining(FIRST)
for write, read, allowed in ALLOWED:
    tpm.chapter(f"{read.name} alone.")
    public = area(FIRST, read | nv.WRITES | LOCKS)
    tpm.define(f"{read.name}, and all that allow to write", public, auth=b"a")
    tpm("TPM2_NV_Write").writing(FIRST, b"written.")
    each_asker("TPM2_NV_Read", allowed, lambda by: tpm.reading(FIRST, 8, by=by))
    session = tpm.policy("A policy session")
    each_asker("TPM2_PolicyNV", allowed, lambda by: tpm.comparing(session, FIRST, b"w", by=by))
    tpm("The session is flushed").flush(session)
    session = tpm.policy("Another session, for TPM2_PolicySecret")
    said = tpm(f"TPM2_PolicySecret of the index: {refusal('index', allowed)}")
    said.secret(session, tpm.auth_value(FIRST), of=FIRST)
    tpm("The session is flushed").flush(session)
    each_asker("TPM2_NV_ReadLock", allowed, lambda by: tpm.read_locking(FIRST, by=by))
    tpm("The index is undefined").undefining(FIRST)

tpm.chapter("Another index as authHandle: its own attributes say whether it authorizes at all.")
tpm.define("The index that is asked for", area(FIRST, BY_VALUE), auth=b"a")
tpm.define("An index that only a policy can use", area(THIRD, BY_POLICY), auth=b"c")
tpm("The first index is written").writing(FIRST, b"x")
tpm("TPM2_NV_Read by the index for policies: AUTH_UNAVAILABLE").reading(FIRST, 1, by=THIRD)
tpm("TPM2_NV_Write by it: AUTH_UNAVAILABLE").writing(FIRST, b"x", by=THIRD)
tpm("The other index may not read either, with its right value: NV_AUTHORIZATION").reading(
    FIRST, 1, by=SECOND
)
tpm("The other index with a wrong value: AUTH_FAIL/s1").reading(FIRST, 1, b"a", by=SECOND)

tpm.chapter("authHandle and nvIndex of other kinds.")
right = tpm.reading(SECOND, 8)
others = RH_NULL, RH_LOCKOUT, RH_ENDORSEMENT, RS_PW, 0, 0x8000_0000, 0x0300_0000
tpm.fails(
    "authHandle: TPM_RH_NULL, TPM_RH_LOCKOUT, TPM_RH_ENDORSEMENT, TPM_RS_PW, PCR 0, an object and "
    "a session: VALUE/h1",
    *(right.but(handles=[it, SECOND]) for it in others),
)
case = "nvIndex: the owner, the platform, PCR 1, an object and a session: VALUE/h2"
others = RH_OWNER, RH_PLATFORM, 1, 0x8000_0000, 0x0200_0000
tpm.fails(case, *(right.but(handles=[SECOND, it]) for it in others))
tpm("An index is undefined").undefining(FIRST)
tpm.fails("authHandle that is not defined: HANDLE/h1", right.but(handles=[FIRST, SECOND]))
tpm.fails("nvIndex that is not: HANDLE/h2", right.but(handles=[SECOND, FIRST]))
tpm.fails("Both handles do not exist: HANDLE/h1", right.but(handles=[FIRST, FIRST]))
