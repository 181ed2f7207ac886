"""Makes order_of_nv_refusals.tpm. The order of refusals in the commands on NV indices: a buffer has
many faults, which are repaired one after the other. The response always reports the first remaining
fault.
"""

from tpmsim.standard import handle_kinds
from tests.common.order import OrderTeller
from tests.common.vocabulary import area, bits, BY_OWNER, BY_POLICY, BY_VALUE, CC, counter
from tests.common.vocabulary import DECRYPT, extended, frames, LOCKS, number, NvAttribute, others_in
from tests.common.vocabulary import policy, RH_OWNER, RH_PLATFORM, SHA1, sized, Use

ORDINARY, COUNTER, BITS, EXTENDED = range(0x0100_0001, 0x0100_0005)
LOCKED_ORDINARY, LOCKED_COUNTER, READ_LOCKED, UNWRITTEN = range(0x0100_0011, 0x0100_0015)
BY_OTHERS, PLATFORMS, CHANGED, NEW = range(0x0100_0021, 0x0100_0025)
UNREAD = 0x0100_0031
VALUE = b"a"

tpm = OrderTeller(__name__, __doc__, tries=True)


def in_order(what, code, handles, cut, uses, *cases):
    """Writes a chapter about a command: first the refusals that precede those of the parameters,
    with the truncated parameters `cut`; then the cases, each with fewer faults.
    """
    tpm.chapter(f"TPM2_{code.name}{what}.")
    is_first = handle_kinds.IS_OF_KIND[code.handles[0].kind]
    closed = BY_OTHERS if code.authorized and is_first(BY_OTHERS) else None
    both = "AUTH_FAIL/s1" if handle_kinds.is_index(handles[0]) else "BAD_AUTH/s1"
    tpm.refuses_before_parameters(code, handles, cut, uses, closed, both)
    tpm.in_order(code, uses, *cases)


def changes(code, what, index, locked, parameters, faults=(), ranges=()):
    """Tests one of the four commands that change an index. The index `locked` is locked, and is of
    a type that the command cannot change.
    """
    open_one = ORDINARY if index != ORDINARY else COUNTER
    out = ranges[-1][1] if ranges else parameters
    by_owner = [RH_OWNER, locked]
    in_order(
        what,
        *(code, [index, index], parameters[:-1] or b"\0"),
        [VALUE, Use(session, 1 | DECRYPT) if code.takes_sized else Use(session)],
        *((what, outcome, by_owner, text) for what, outcome, text in faults),
        ("A byte after the rest", "SIZE", by_owner, out + b"\0"),
        ("By the owner, who may not, of a locked index", "NV_AUTHORIZATION", by_owner, out),
        ("By another index", "NV_AUTHORIZATION", [ORDINARY, locked], out),
        ("By the index itself", "NV_LOCKED", [locked, locked], out),
        ("One that is open, of another type", "ATTRIBUTES/h2", [open_one, open_one], out),
        *((what, "NV_RANGE", [index, index], text) for what, text in ranges),
        ("With nothing wrong", "SUCCESS", [index, index], parameters),
    )


def define_space():
    long_auth, none = sized(b"a" * 21), sized(b"")
    everything = area(ORDINARY, 0, 0xFFFF, algorithm=SHA1, auth_policy=b"p").text

    def case(what, outcome, text, auth=long_auth):
        return what, outcome, [RH_OWNER], auth + text

    def defined(index=ORDINARY, attributes=BY_VALUE, size=2048):
        return sized(area(index, attributes, size, algorithm=SHA1).text)

    in_order(
        ", with auth encrypted",
        *(CC.NV_DefineSpace, [RH_OWNER], sized(b"a")[:-1], [b"", Use(session, 1 | DECRYPT)]),
        case("auth is cut", "INSUFFICIENT/p1", b"", b"\0\1"),
        case("It has 33 bytes", "SIZE/p1", b"\0", sized(bytes(33))),
        case("publicInfo is cut", "INSUFFICIENT/p2", sized(everything)[:-1]),
        case("nvIndex", "VALUE/p2", sized(number(RH_OWNER, 4) + number(0, 6)) + b"\0"),
        case("nameAlg", "HASH/p2", sized(everything[:4] + number(0, 2) + b"\xff" * 4) + b"\0"),
        case("Attributes", "RESERVED_BITS/p2", sized(everything[:6] + b"\xff" * 6) + b"\0"),
        case(
            "authPolicy of 33 bytes", "SIZE/p2", sized(everything[:10] + sized(bytes(33))) + b"\0"
        ),
        case("dataSize is cut", "SIZE/p2", sized(everything[:-1]) + b"\0"),
        case("A byte after publicInfo", "SIZE", sized(everything) + b"\0"),
        case("auth of 21 bytes, with SHA-1", "SIZE/p1", sized(everything)),
        case("authPolicy of a byte", "SIZE/p2", sized(everything), none),
        case("No attributes", "ATTRIBUTES/p2", defined(attributes=0, size=2049), none),
        case("2,049 bytes", "SIZE/p2", defined(size=2049), none),
        case("An index that is there", "NV_DEFINED", defined(), none),
        case("2,048 bytes, for which there is no space", "NV_SPACE", defined(NEW), none),
        case("With nothing wrong", "SUCCESS", defined(NEW, size=4), none),
    )
    tpm("The index is undefined").undefining(NEW)


def change_auth():
    tpm.chapter("TPM2_NV_ChangeAuth, with newAuth encrypted by another session.")
    told = tpm.policy("A policy session of SHA-1", algorithm=SHA1)
    hides, cut = Use(session, 1 | DECRYPT), sized(b"a" * 21)[:-1]
    uses = Use(told, shows_empty_key=True), hides
    tpm.refuses_handles(CC.NV_ChangeAuth, [CHANGED])
    tpm.refuses_entries(CC.NV_ChangeAuth, [CHANGED], cut, uses)

    def prepared(parameters=cut, first=None, index=CHANGED):
        uses = first or Use(told, shows_empty_key=True), hides
        return tpm.prepare(CC.NV_ChangeAuth, [index], parameters, *uses)

    def both_wrong(words, **choices):
        tpm.refused(words, others_in(prepared(**choices), 1, 2))

    trial = Use(tpm.trial("A trial session"), shows_empty_key=True)
    case = "A trial session, on an index without a policy: ATTRIBUTES/s1"
    both_wrong(case, first=trial, index=ORDINARY)
    both_wrong("A password: AUTH_UNAVAILABLE", first=VALUE)
    both_wrong("A policy session, on an index without a policy: AUTH_UNAVAILABLE", index=ORDINARY)
    tpm("TPM2_PolicyPCR of no PCRs").pcrs(told, [])
    policy_in_order(told, both_wrong)
    tpm.refused("The last entry is wrong: BAD_AUTH/s2", others_in(prepared(), 2))
    for words, parameters in (
        ("newAuth is cut: INSUFFICIENT/p1", cut),
        ("It has 33 bytes: SIZE/p1", sized(bytes(33)) + b"\0"),
        ("A byte after it: SIZE", sized(b"a" * 21) + b"\0"),
        ("21 bytes: SIZE/p1", sized(b"a" * 21)),
    ):
        tpm.refused(words, prepared(parameters))
    tpm.does("With nothing wrong", prepared(sized(b"a" * 20)))
    tpm.locality_is(0)


def policy_in_order(told, both_wrong):
    """Makes assertions in a policy session. `both_wrong` is the outcome if both entries are wrong."""

    def tell_code(code):
        tpm(f"TPM2_PolicyCommandCode of TPM2_{code.name}").command_code(told, code)

    def tell_locality():
        tpm("TPM2_PolicyLocality of locality 1").locality(told, 2)

    tell_code(CC.NV_Write)
    tell_locality()
    tpm("A PCR is extended").event(b"", b"")
    both_wrong("A PCR has changed, and another code is recorded: PCR_CHANGED")
    tpm.restarts(told)
    tell_code(CC.NV_Write)
    tell_locality()
    both_wrong("Another code, and another locality: POLICY_CC/s1")
    tpm.restarts(told)
    tell_locality()
    both_wrong("No code, and another locality: POLICY_FAIL/s1")
    tell_code(CC.NV_ChangeAuth)
    both_wrong("Another locality, and another digest: LOCALITY")
    tpm.locality_is(1)
    both_wrong("Another digest: POLICY_FAIL/s1")
    tpm.restarts(told)
    tell_code(CC.NV_ChangeAuth)
    both_wrong("Both hmacs are wrong: BAD_AUTH/s1")


def policy_nv():
    told = tpm.policy("A policy session")
    operand = sized(b"x")
    far = frames.policy_nv(b"x", 9)

    def case(what, outcome, parameters, index=READ_LOCKED, by=RH_OWNER):
        return what, outcome, [by, index, told.handle], parameters

    in_order(
        ", with operandB encrypted",
        *(CC.PolicyNV, [ORDINARY, ORDINARY, told.handle], operand[:-1]),
        [VALUE, Use(session, 1 | DECRYPT)],
        case("operandB is cut", "INSUFFICIENT/p1", operand[:-1]),
        case("It has 33 bytes", "SIZE/p1", sized(bytes(33)) + b"\0"),
        case("offset is cut", "INSUFFICIENT/p2", operand + b"\0"),
        case("operation is cut", "INSUFFICIENT/p3", operand + bytes(3)),
        case("operation C", "VALUE/p3", frames.policy_nv(b"x", 9, 0xC) + b"\0"),
        case("A byte after it", "SIZE", far + b"\0"),
        case("By the owner, who may not", "NV_AUTHORIZATION", far),
        case("By another index", "NV_AUTHORIZATION", far, by=ORDINARY),
        case("Locked, and not written", "NV_LOCKED", far, by=READ_LOCKED),
        case("Not written", "NV_UNINITIALIZED", far, UNREAD, UNREAD),
        case("Past the end", "NV_RANGE", far, ORDINARY, ORDINARY),
        case("What does not hold", "POLICY", frames.policy_nv(b"x"), ORDINARY, ORDINARY),
        case("With nothing wrong", "SUCCESS", frames.policy_nv(b"8"), ORDINARY, ORDINARY),
    )


CHANGING = policy.after_command_code(SHA1, bytes(20), CC.NV_ChangeAuth)
tpm.chapter("Indices: of each type, some that are locked, and the rest of the bytes.")
for index, public in enumerate(
    (
        area(ORDINARY, BY_VALUE),
        counter(COUNTER, BY_VALUE),
        bits(BITS, BY_VALUE),
        extended(EXTENDED, BY_VALUE),
        area(LOCKED_ORDINARY, BY_VALUE | LOCKS),
        counter(LOCKED_COUNTER, BY_VALUE | LOCKS),
        area(READ_LOCKED, BY_VALUE | LOCKS),
        area(UNWRITTEN, BY_VALUE | LOCKS),
        area(UNREAD, BY_VALUE),
        area(BY_OTHERS, BY_OWNER | BY_POLICY),
        area(CHANGED, BY_VALUE | NvAttribute.NO_DA, algorithm=SHA1, auth_policy=CHANGING),
        *(area(0x0100_0041 + it, BY_VALUE, size=2000) for it in range(8)),
    )
):
    tpm.define("They are defined" if index == 0 else "", public, auth=VALUE)
said = tpm("One of the platform's")
said.define(area(PLATFORMS, BY_VALUE | NvAttribute.PLATFORMCREATE), auth=VALUE, by=RH_PLATFORM)
tpm("The ordinary one is written").writing(ORDINARY, b"8 bytes.")
tpm("Some are locked").write_locking(LOCKED_ORDINARY)
tpm("").write_locking(LOCKED_COUNTER)
tpm("").read_locking(READ_LOCKED)
session = tpm.start("A session with AES, that is bound to TPM_RH_OWNER", bind=RH_OWNER, aes=True)

define_space()

in_order(
    *("", CC.NV_UndefineSpace, [RH_OWNER, PLATFORMS], b"\0", [b"", Use(session)]),
    ("A byte after the area", "SIZE", [RH_OWNER, PLATFORMS], b"\0"),
    ("An index of the platform's", "NV_AUTHORIZATION", [RH_OWNER, PLATFORMS], b""),
    ("With nothing wrong", "SUCCESS", [RH_PLATFORM, PLATFORMS], b""),
)

in_order(
    ", with a session that authorizes nothing",
    *(CC.NV_ReadPublic, [ORDINARY], b"\0", [Use(session)]),
)
wrong_size = tpm.index_public(ORDINARY, session).handles
tpm("A byte after the handle: SIZE").prepare(CC.NV_ReadPublic, wrong_size, b"\0", session)
tpm.is_now("With nothing wrong", ORDINARY, session)

LONG = sized(bytes(1025))
faults = (
    ("data of 1,025 bytes", "SIZE/p1", LONG + b"\0"),
    ("offset is cut", "INSUFFICIENT/p2", sized(b"x") + b"\0"),
)
whole, ranges = frames.nv_write(b"8 bytes."), [("Past the end", frames.nv_write(b"x", 9))]
what = ", with data encrypted"
changes(CC.NV_Write, what, ORDINARY, LOCKED_COUNTER, whole, faults, ranges)
changes(CC.NV_Increment, "", COUNTER, LOCKED_ORDINARY, b"")
faults = [("bits are cut", "INSUFFICIENT/p1", bytes(7))]
changes(CC.NV_SetBits, "", BITS, LOCKED_ORDINARY, number(5, 8), faults)
faults = [("data are cut", "INSUFFICIENT/p1", b"\0\3ab"), ("1,025 bytes", "SIZE/p1", LONG + b"\0")]
changes(CC.NV_Extend, what, EXTENDED, LOCKED_COUNTER, sized(b"abc"), faults)

far = frames.nv_read(1025, 9)
in_order(
    *("", CC.NV_Read, [ORDINARY, ORDINARY], b"\0", [VALUE, Use(session)]),
    ("size is cut", "INSUFFICIENT/p1", [RH_OWNER, READ_LOCKED], far[:1]),
    ("offset is cut", "INSUFFICIENT/p2", [RH_OWNER, READ_LOCKED], far[:3]),
    ("A byte after it", "SIZE", [RH_OWNER, READ_LOCKED], far + b"\0"),
    ("By the owner, who may not", "NV_AUTHORIZATION", [RH_OWNER, READ_LOCKED], far),
    ("By another index", "NV_AUTHORIZATION", [ORDINARY, READ_LOCKED], far),
    ("Locked, and not written", "NV_LOCKED", [READ_LOCKED, READ_LOCKED], far),
    ("Not written", "NV_UNINITIALIZED", [UNWRITTEN, UNWRITTEN], far),
    ("1,025 bytes", "VALUE/p1", [ORDINARY, ORDINARY], far),
    ("1,024", "NV_RANGE", [ORDINARY, ORDINARY], frames.nv_read(1024, 9)),
    ("With nothing wrong", "SUCCESS", [ORDINARY, ORDINARY], frames.nv_read(8)),
)

for code in (CC.NV_WriteLock, CC.NV_ReadLock):
    in_order(
        *("", code, [ORDINARY, ORDINARY], b"\0", [VALUE, Use(session)]),
        ("A byte after the area", "SIZE", [RH_OWNER, ORDINARY], b"\0"),
        ("By the owner, who may not", "NV_AUTHORIZATION", [RH_OWNER, ORDINARY], b""),
        ("By another index", "NV_AUTHORIZATION", [COUNTER, ORDINARY], b""),
        ("What cannot be locked", "ATTRIBUTES/h2", [ORDINARY, ORDINARY], b""),
        ("With nothing wrong", "SUCCESS", [UNWRITTEN, UNWRITTEN], b""),
        ("And again", "SUCCESS", [UNWRITTEN, UNWRITTEN], b""),
    )

change_auth()
policy_nv()
