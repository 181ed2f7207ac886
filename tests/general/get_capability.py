"""Makes get_capability.tpm. TPM2_GetCapability lists handles (1), commands (2), PCRs (5) and
properties (6). It returns the elements from the requested one on, up to the requested number, and
says whether there are more.
"""

from tpmsim.model.capability import command_attributes, COMMANDS, HANDLES, PCRS, PROPERTIES
from tpmsim.standard import NUMBERED
from tests.common.steps import Steps
from tests.common.vocabulary import area, BY_VALUE, CC, command, frames, number, RH_OWNER, SE_POLICY
from tests.common.vocabulary import selection, SHA1, SHA256, storage_key, wrong

MOST = 2**32 - 1

# The TPMA_CC of each command. It contains the command's code; the number of its handles, from bit
# 25 on; and bit 28 if the command returns a handle.
ATTRIBUTES = [command_attributes(it) for it in sorted(NUMBERED.values())]

tpm = Steps(__name__, __doc__, starts=False)
says, gives = tpm.raw, tpm.lists


def borders(name, capability, wanted, whole):
    """Reads a list, beginning at `wanted`, with different counts: none, one, all but one, all, and
    more than all.
    """
    gives(f"{name}, as many as there are", capability, wanted, MOST, whole)
    for count in (64, 65):
        gives("", capability, wanted, count, whole)
    gives("None of them", capability, wanted, 0, [], more=bool(whole))
    if whole:
        gives("The first", capability, wanted, 1, whole[:1], more=len(whole) > 1)
        gives("All, counted", capability, wanted, len(whole), whole)
    if len(whole) > 1:
        gives("All but the last", capability, wanted, len(whole) - 1, whole[:-1], more=True)


def tries():
    tpm.chapter("The tries that are counted (20E).")
    index = 0x0100_2000
    tpm.written("An index", area(index, BY_VALUE), b"x", auth=b"a")

    def are(what, count, after=0):
        if after:
            tpm.wait(after)
        gives(what, PROPERTIES, 0x20E, 1, [(0x20E, count)], more=True)

    bad = tpm.writing(index, b"x", b"b")
    for count in (1, 2, 3):
        tpm.fails("A wrong password: AUTH_FAIL/s1", bad)
        are(f"Tries: {count}", count)
    tpm.fails("One more: LOCKOUT", bad)
    are("It was not counted", 3)
    tpm("A wrong password of what is not protected: BAD_AUTH/s1").reset(b"x")
    are("Nor was it", 3)
    tpm("One of TPM_RH_LOCKOUT: AUTH_FAIL/s1").lock_reset(b"x")
    are("Nor that", 3)
    are("Just before recoveryTime", 3, after=999_999)
    are("Then", 2, after=1)
    are("A millisecond before all are forgiven", 1, after=1_999_999)
    are("Then", 0, after=1)
    tpm.fails("A wrong password: AUTH_FAIL/s1", bad)
    are("Never less than 0", 0, after=MOST)
    tpm.fails("Two wrong ones: AUTH_FAIL/s1", bad, bad)
    tpm.power_cycle()
    are("After a power cycle", 2)
    are("1,500 seconds later", 1, after=1_500_000)
    are("500 more", 0, after=500_000)
    tpm.fails("Two wrong ones: AUTH_FAIL/s1", bad, bad)
    tpm.set_protection("recoveryTime is 0", 3, 0, 1000)
    tpm.fails("Two wrong ones are not counted: AUTH_FAIL/s1", bad, bad)
    are("Nor are others forgiven", 2, after=MOST)
    tpm.unlocks()
    are("None", 0)


asked = number(PROPERTIES, 4) + number(0x100, 4) + number(1, 4)
tpm("Before TPM2_Startup: INITIALIZE").capability(PROPERTIES, 0x100, 1)
tpm.startup()
tpm("As it is asked for").capability(PROPERTIES, 0x100, 1)
for place in (1, 2, 3):
    case = f"Cut within parameter {place}: INSUFFICIENT/p{place}"
    says(case, *(command(CC.GetCapability, asked[: 4 * place - it]) for it in (4, 1)))
says("A byte after them: SIZE", command(CC.GetCapability, asked + b"\0"))
case = "Algorithms (0), and others that are not served: VALUE/p1"
others = (0, 3, 4, 7, 8, 9, 0x100, 0x0100_0001, MOST)
tpm.says(case, *(tpm.capability(it, 0x100, 1) for it in others))
case = "Such a one and a byte after it: the size is checked first: SIZE"
says(case, command(CC.GetCapability, bytes(13)))
case = "Handles that begin with another byte than 00, 01, 02, 03, 40, 80 and 81: HANDLE/p2"
kinds = (0x04, 0x3F, 0x41, 0x7F, 0x82, 0x90, 0xFF)
tpm.says(case, *(tpm.capability(HANDLES, it << 24, at) for it in kinds for at in (0, 1)))
case = "A password, as there is nothing to authorize: HANDLE/s1"
says(case, command(CC.GetCapability, frames.area(frames.entry()) + asked, frames.SESSIONS))

tpm.chapter("With a session.")
session = tpm.start("An HMAC session with AES", aes=True)
tpm("It authorizes nothing").capability(PROPERTIES, 0x100, 1, session)
asked = tpm.capability(PROPERTIES, 0x100, 1, session)
tpm.refused("A wrong hmac: BAD_AUTH/s1", wrong(asked))
tpm.encrypts_nothing(lambda: asked)
tpm("The session is flushed").flush(session)

tpm.chapter("Handles of PCRs.")
borders("From 0", HANDLES, 0, list(range(24)))
gives("From 12", HANDLES, 12, 5, list(range(12, 17)), more=True)
borders("From 23", HANDLES, 23, [23])
borders("From 24, which does not exist", HANDLES, 24, [])
gives("From the last one of the kind", HANDLES, 0x00FF_FFFF, 1, [])
tpm.chapter("Permanent handles.")
whole = [0x40000001, 0x40000007, 0x40000009, 0x4000000A, 0x4000000B, 0x4000000C]
borders("From 40000000", HANDLES, 0x4000_0000, whole)
borders("From the first", HANDLES, whole[0], whole)
gives("From the next one on", HANDLES, whole[0] + 1, 1, whole[1:2], more=True)
gives("From between", HANDLES, 0x4000_0008, 2, whole[2:4], more=True)
borders("From the last", HANDLES, whole[-1], whole[-1:])
borders("From the next one on", HANDLES, whole[-1] + 1, [])
gives("From the last one of the kind", HANDLES, 0x40FF_FFFF, 1, [])

tpm.chapter("Sessions: those of every type are 02, by their places.")
borders("There is none", HANDLES, 0x0200_0000, [])
borders("Nor from its last one on", HANDLES, 0x02FF_FFFF, [])
held = [tpm.trial("A trial session"), tpm.start("An HMAC session")]
held += [tpm.policy("A policy session"), tpm.start("An HMAC session")]
handles = [it.handle for it in held]
assert handles == [0x0300_0000, 0x0200_0001, 0x0300_0002, 0x0200_0003]
borders("From 02000000", HANDLES, 0x0200_0000, handles)
borders("From 02000001", HANDLES, 0x0200_0001, handles[1:])
borders("From 02000003", HANDLES, 0x0200_0003, handles[3:])
borders("From 02000004", HANDLES, 0x0200_0004, [])
borders("03 are saved sessions, of which there are none", HANDLES, 0x0300_0000, [])
gives("From 03000002 on, too", HANDLES, 0x0300_0002, 1, [])
tpm("The third is flushed").flush(held[2])
borders("From 02000001", HANDLES, 0x0200_0001, [handles[1], handles[3]])
borders("From 02000002", HANDLES, 0x0200_0002, handles[3:])
for place in (2, *range(4, 16)):
    tpm.start("All places are taken" if place == 2 else "", kind=SE_POLICY)
handles = [*handles[:2], 0x0300_0002, handles[3], *range(0x0300_0004, 0x0300_0010)]
borders("Sixteen sessions", HANDLES, 0x0200_0000, handles)
borders("From the last", HANDLES, 0x0200_000F, handles[15:])
tpm.power_cycle()
borders("A power cycle has ended them", HANDLES, 0x0200_0000, [])

tpm.chapter("Transient objects.")
borders("There is none", HANDLES, 0x8000_0000, [])
for count in range(4):
    tpm.create_primary("Four storage keys" if not count else "", RH_OWNER, storage_key())
handles = list(range(0x8000_0000, 0x8000_0004))
borders("From 80000000", HANDLES, 0x8000_0000, handles)
tpm.flush_objects("The second is flushed", handles[1])
there = [handles[0], *handles[2:]]
borders("From 80000000", HANDLES, 0x8000_0000, there)
borders("From the second", HANDLES, handles[1], there[1:])
borders("From the last", HANDLES, handles[3], there[2:])
borders("From the next one on", HANDLES, handles[3] + 1, [])
borders("There is no persistent object", HANDLES, 0x8100_0000, [])
gives("From the last one of the kind", HANDLES, 0x80FF_FFFF, 1, [])

tpm.chapter("NV indices, which are defined in no order.")
borders("There is none", HANDLES, 0x0100_0000, [])
handles = [0x01FF_FFFF, 0x0100_0000, 0x01C0_0002, 0x0180_0000, 0x0100_0001]
for index in handles:
    tpm.define("Five indices" if index == handles[0] else "", area(index, BY_VALUE))
handles.sort()
borders("From 01000000", HANDLES, 0x0100_0000, handles)
borders("From the second", HANDLES, handles[1], handles[1:])
borders("From the next one on", HANDLES, handles[1] + 1, handles[2:])
borders("From the last", HANDLES, handles[-1], handles[-1:])
for index in range(0x0100_1000, 0x0100_103B):
    tpm.define("There are 64" if index == 0x0100_1000 else "", area(index, BY_VALUE))
    handles.append(index)
handles.sort()
borders("From 01000000", HANDLES, 0x0100_0000, handles)
tpm("One is undefined").undefining(handles[7])
del handles[7]
borders("From 01000000", HANDLES, 0x0100_0000, handles)

tpm.chapter("Commands, by their codes; the attributes are answered.")
borders("From 0", COMMANDS, 0, ATTRIBUTES)
first, last = ATTRIBUTES[0] & 0xFFFF, ATTRIBUTES[-1] & 0xFFFF
borders("From the first code", COMMANDS, first, ATTRIBUTES)
gives("From the next one on", COMMANDS, first + 1, 1, ATTRIBUTES[1:2], more=True)
borders("From the last code", COMMANDS, last, ATTRIBUTES[-1:])
borders("From the next one on", COMMANDS, last + 1, [])
gives("From FFFFFFFF", COMMANDS, MOST, 1, [])
gives("Attributes are no code", COMMANDS, ATTRIBUTES[0], 1, [])
for words, behind in (("From each code", 0), ("From after each", 1)):
    for at, attributes in enumerate(ATTRIBUTES):
        code, following = (attributes & 0xFFFF) + behind, ATTRIBUTES[at + behind :]
        is_more = len(following) > 1
        gives(words if not at else "", COMMANDS, code, 1, following[:1], is_more)

tpm.chapter("PCRs: both banks have all of them, whatever property and count are.")
banks = selection((SHA1, range(24)), (SHA256, range(24)))
for wanted, count in ((0, 64), (0, 0), (0, 1), (1, 1), (MOST, MOST), (MOST, 0)):
    said = tpm(f"Property {wanted:X}, count {count:X}")
    assert said.capability(PCRS, wanted, count) == b"\0" + number(PCRS, 4) + banks

tpm.chapter(
    "Properties: TPM_PT_FAMILY_INDICATOR (100), TPM_PT_TOTAL_COMMANDS (129), "
    "TPM_PT_LOCKOUT_COUNTER (20E), TPM_PT_MAX_AUTH_FAIL (20F), TPM_PT_LOCKOUT_INTERVAL (210) "
    "and TPM_PT_LOCKOUT_RECOVERY (211)."
)
family, total = (0x100, 0x322E3000), (0x129, len(ATTRIBUTES))
whole = [family, total, (0x20E, 0), (0x20F, 3), (0x210, 1000), (0x211, 1000)]
borders("From 0", PROPERTIES, 0, whole)
borders("From the first", PROPERTIES, 0x100, whole)
for at, (key, _) in enumerate(whole):
    borders(f"From {key + 1:X}", PROPERTIES, key + 1, whole[at + 1 :])
gives("From FFFFFFFF", PROPERTIES, MOST, MOST, [])
tpm.set_protection("TPM2_DictionaryAttackParameters", 4, 0x12345678, 0xFFFFFFFE)
gives("The three", PROPERTIES, 0x20F, 3, [(0x20F, 4), (0x210, 0x12345678), (0x211, MOST - 1)])
tpm.set_protection("TPM2_DictionaryAttackParameters", 3, 1000, 1000)

tries()
