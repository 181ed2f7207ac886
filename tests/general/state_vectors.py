"""Makes state_vectors.tpm. Commands whose responses were written down by hand, byte by byte,
before there was a device. The program stops if it gets a different response.
"""

from tests.common.vocabulary import area, BY_VALUE, FIRST, frames, ObjectAttribute, RH_NULL, sealed
from tests.common.vocabulary import storage_key, Teller

# The authorization area with the empty password, and the response of a command that returns
# nothing.
PW = "00000009 40000009 0000 01 0000"
OK = "8002 00000013 00000000 00000000 0000 01 0000"

STARTUP, STARTUP_STATE = "8001 0000000C 00000144 0000", "8001 0000000C 00000144 0001"
SHUTDOWN_STATE = "8001 0000000C 00000145 0001"
READ_TRIES = "8001 00000016 0000017A 00000006 0000020E 00000001"
SUCCESS = "8001 0000000A 00000000"

tpm = Teller(__name__, __doc__, starts=False)


def code(number):
    """Returns the response of a command that is refused with this code."""
    return f"8001 0000000A {number:08X}"


def answered(what, asked, wanted, outcome="SUCCESS"):
    response = tpm.raw(f"{what}: {outcome}", bytes.fromhex(asked))
    assert response == bytes.fromhex(wanted), f"{what}: {response.hex()}"


def tries_are(what, tries):
    wanted = f"8001 0000001B 00000000 01 00000006 00000001 0000020E {tries:08X}"
    answered(what, READ_TRIES, wanted)


answered("TPM2_Startup(CLEAR)", STARTUP, SUCCESS)
tpm.wait(5)
answered(
    "TPM2_ReadClock, five milliseconds later",
    "8001 0000000A 00000181",
    "8001 00000023 00000000 0000000000000005 0000000000000005 00000001 00000000 01",
)
answered(
    "TPM2_ReadClock with an authorization area",
    f"8002 00000017 00000181 {PW}",
    code(0x145),
    "AUTH_CONTEXT",
)
answered(
    "TPM2_GetCapability of one command from 131 on: TPM2_CreatePrimary takes one handle, and "
    "returns one",
    "8001 00000016 0000017A 00000002 00000131 00000001",
    "8001 00000017 00000000 01 00000002 00000001 12000131",
)
answered(
    "TPM_PT_FAMILY_INDICATOR (100)",
    "8001 00000016 0000017A 00000006 00000100 00000001",
    "8001 0000001B 00000000 01 00000006 00000001 00000100 322E3000",
)
answered(
    "TPM_PT_TOTAL_COMMANDS (129)",
    "8001 00000016 0000017A 00000006 00000129 00000001",
    "8001 0000001B 00000000 01 00000006 00000001 00000129 0000002F",
)
nothing = "8001 00000013 00000000 00 00000001 00000000"
sessions = "8001 00000016 0000017A 00000001 {} 00000001"
answered("Sessions, of which there are none", sessions.format("02000000"), nothing)
tpm.script.entropy(b"\xaa")
answered(
    "TPM2_StartAuthSession of a trial session",
    "8001 0000002B 00000176 40000007 40000007 0010 00000000000000000000000000000000 0000 03 "
    "0010 000B",
    "8001 00000020 00000000 03000000 0010 AAAAAAAAAAAAAAAAAAAAAAAAAAAAAAAA",
)
case = "Sessions of every type are listed for 02"
answered(case, sessions.format("02000000"), "8001 00000017 00000000 00 00000001 00000001 03000000")
answered("Saved sessions are listed for 03", sessions.format("03000000"), nothing)

tpm.chapter("TPM2_ClearControl and TPM2_Clear.")
control = "8002 0000001C 00000127 {} " + PW + " {}"
clear = "8002 0000001B 00000126 {} " + PW
answered("TPM2_ClearControl of YES by TPM_RH_LOCKOUT", control.format("4000000A", "01"), OK)
answered("TPM2_Clear", clear.format("4000000A"), code(0x120), "DISABLED")
case = "TPM2_ClearControl of NO by TPM_RH_LOCKOUT"
answered(case, control.format("4000000A", "00"), code(0x08E), "AUTH_FAIL")
tries_are("That is not a failed try", 0)
answered("TPM2_ClearControl of NO by the platform", control.format("4000000C", "00"), OK)
before = tpm("The update counter").read_pcr(0)
answered("TPM2_Clear by the platform", clear.format("4000000C"), OK)
after = tpm("The update counter is one higher").read_pcr(0)
assert int.from_bytes(after[:4], "big") == int.from_bytes(before[:4], "big") + 1

tpm.chapter("TPM2_EvictControl: a loaded object stays, and the platform removes it.")
root = tpm.create_primary("A storage key", frames.RH_OWNER, storage_key())
made = tpm.create("A sealed object", root, sealed(), data=bytes(range(128)))
handle = tpm.load("The object is loaded as 80000001", root, made)
assert handle == 0x8000_0001
answered(
    "The object becomes persistent as 81000001",
    f"8002 00000023 00000120 40000001 80000001 {PW} 81000001",
    OK,
)
tpm.note(0x8100_0001, tpm.names[handle], b"")
transient = tpm.read_public("TPM2_ReadPublic of 80000001", handle)
assert tpm.read_public("TPM2_ReadPublic of 81000001", 0x8100_0001) == transient
case = "The platform removes the persistent object"
answered(case, f"8002 00000023 00000120 4000000C 81000001 {PW} 81000001", OK)
answered(
    "The persistent object no longer exists",
    "8001 0000000E 00000173 81000001",
    code(0x18B),
    "HANDLE/h1",
)
tpm.flush_objects("The transient objects are flushed", handle, root)

tpm.chapter("If a buffer with an HMAC is sent again, this is a failed try.")
tpm.raw(
    'TPM2_NV_DefineSpace of index 01000001, attributes 00040004, eight bytes, value "a": '
    "SUCCESS",
    bytes.fromhex(
        f"8002 0000002E 0000012A 40000001 {PW} 0001 61 000E 01000001 000B 00040004 0000 0008"
    ),
)
tpm.auth_values[FIRST] = b"a"
tpm.note_public(area(FIRST, BY_VALUE))
tpm("TPM2_NV_Write by the password").writing(FIRST, b"12345678")
session = tpm.start("An HMAC session that is bound to nothing")
write = tpm.writing(FIRST, b"87654321", session)
tpm.does("TPM2_NV_Write with this session", write)
answered("The same buffer", write.buffer().hex(), code(0x98E), "AUTH_FAIL/s1")
tries_are("failedTries is 1", 1)
tpm.unlocks()

tpm.chapter("Passwords count without trailing zeros. Only some wrong passwords are failed tries.")
change = "8002 {:08X} 00000129 40000001 {:08X} 40000009 0000 01 {} 0003 616263"
answered('ownerAuth is "abc"', change.format(0x20, 9, "0000"), OK)
answered("61626300 is the right password too", change.format(0x24, 13, "0004 61626300"), OK)
other = change.format(0x23, 12, "0003 616264")
answered('"abd" is wrong, but not a failed try', other, code(0x9A2), "BAD_AUTH/s1")
tries_are("failedTries is 0", 0)
template = sealed(attributes=ObjectAttribute.USER_WITH_AUTH)
said = tpm("A sealed object without noDA")
handle = said.create_primary(RH_NULL, template, user_auth=b"pin", data=b"data")
assert handle == 0x8000_0000
answered(
    "TPM2_Unseal by a wrong password",
    "8002 0000001C 0000015E 80000000 0000000A 40000009 0000 01 0001 78",
    code(0x98E),
    "AUTH_FAIL/s1",
)
tries_are("failedTries is 1", 1)

tpm.chapter("maxTries 3 and recoveryTime 1000, which are those of a new device.")
unseal = "8002 {:08X} 0000015E 80000000 {:08X} 40000009 0000 01 {}"
bad = unseal.format(0x1C, 10, "0001 78")
right = unseal.format(0x1E, 12, "0003 70696E")
opened = "8002 00000019 00000000 00000006 0004 64617461 0000 01 0000"
for what in ("The second failed try", "The third failed try"):
    answered(what, bad, code(0x98E), "AUTH_FAIL/s1")
answered("The right password", right, code(0x921), "LOCKOUT")
tpm.wait(999_999)
answered("The right password 999,999 milliseconds later", right, code(0x921), "LOCKOUT")
tpm.wait(1)
answered("One millisecond later", right, opened)
tries_are("failedTries is 2", 2)

tpm.chapter("PCR 3 and 16 are extended, and TPM2_Shutdown(STATE) saves the first of them.")
extend = "8002 00000041 00000182 {:08X} " + PW + " 00000001 000B " + "00" * 32
extended = "f5a5fd42d16a20302798ef6ed309979b43003d2320d9f0e8ea9831a92759fb4b"
answered("TPM2_PCR_Extend of PCR 3 by zeros", extend.format(3), OK)
answered("TPM2_PCR_Extend of PCR 16", extend.format(16), OK)
session = tpm.policy("A policy session")
assert session.handle == 0x0300_0002
answered("TPM2_Shutdown(STATE)", SHUTDOWN_STATE, SUCCESS)
tpm.power()
answered("TPM2_Startup(STATE)", STARTUP_STATE, SUCCESS)
answered(
    "TPM2_PCR_Read of PCR 3 and 16: the first as before, the second zeros",
    "8001 00000014 0000017E 00000001 000B 03 080001",
    "8001 00000060 00000000 00000000 00000001 000B 03 080001 00000002 "
    f"0020 {extended} 0020 {'00' * 32}",
)
answered("The old session", "8001 0000000E 00000189 03000002", code(0x910), "REFERENCE_H0")
tpm.chapter("TPM2_PCR_Extend after TPM2_Shutdown cancels the saved state.")
answered("TPM2_Shutdown(STATE)", SHUTDOWN_STATE, SUCCESS)
answered("TPM2_PCR_Extend of PCR 3", extend.format(3), OK)
tpm.power()
answered("TPM2_Startup(STATE)", STARTUP_STATE, code(0x1C4), "VALUE/p1")
answered("TPM2_Startup(CLEAR)", STARTUP, SUCCESS)
