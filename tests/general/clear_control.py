"""Makes clear_control.tpm. TPM2_ClearControl disables TPM2_Clear (YES, 01), by lockoutAuth or by
the platform, and enables it again (NO, 00), which only the platform may do.
"""

import itertools

from tpmsim.model.capability import LOCKOUT_COUNTER, PROPERTIES
from tests.common.steps import Steps
from tests.common.vocabulary import CC, command, DECRYPTS, ENCRYPTS, number, on_handle
from tests.common.vocabulary import RH_ENDORSEMENT, RH_LOCKOUT, RH_NULL, RH_OWNER, RH_PLATFORM
from tests.common.vocabulary import wrong

NO, YES = 0, 1
BOTH = RH_LOCKOUT, RH_PLATFORM

tpm = Steps(__name__, __doc__, starts=False)
says = tpm.raw


def clears(what):
    says(f"{what}: SUCCESS", *(on_handle(CC.Clear, it) for it in BOTH))


def is_disabled(what):
    says(f"{what}: DISABLED", *(on_handle(CC.Clear, it) for it in BOTH))


tpm("Before TPM2_Startup: INITIALIZE").clear_control(RH_PLATFORM, YES)
tpm.startup()
says("No handle: INSUFFICIENT/h1", command(CC.ClearControl, b""))
others = RH_OWNER, RH_ENDORSEMENT, RH_NULL, 0
tpm.says(
    "Handles that cannot authorize it: VALUE/h1", *(tpm.clear_control(it, YES) for it in others)
)
case = "Without sessions: AUTH_MISSING"
says(case, *(command(CC.ClearControl, number(it, 4) + b"\1") for it in BOTH))
says("No parameter: INSUFFICIENT/p1", *(on_handle(CC.ClearControl, it) for it in BOTH))
case = "Neither YES nor NO: VALUE/p1"
tpm.says(case, *(tpm.clear_control(handle, value) for handle in BOTH for value in (2, 0x80, 0xFF)))
longer = itertools.product(BOTH, (b"\0\0", b"\1\0"))
case = "A byte after the parameter, also after NO by lockoutAuth: SIZE"
says(case, *(on_handle(CC.ClearControl, *it) for it in longer))
policy = tpm.policy("A policy session")
said = tpm("No policy authorizes TPM2_ClearControl: AUTH_UNAVAILABLE")
said.fails(*(tpm.clear_control(it, YES, policy) for it in BOTH))
tpm("The policy session is flushed").flush(policy)
clears("None of these disabled TPM2_Clear, by lockoutAuth and by the platform")

tpm.chapter("By the platform.")
tpm("NO, while TPM2_Clear is already enabled").clear_control(RH_PLATFORM, NO)
clears("TPM2_Clear")
tpm.says("YES, twice: SUCCESS", *2 * [tpm.clear_control(RH_PLATFORM, YES)])
is_disabled("TPM2_Clear by lockoutAuth, and by the platform")
tpm("NO").clear_control(RH_PLATFORM, NO)
clears("TPM2_Clear")
tpm.chapter("By lockoutAuth.")
tpm("NO, although TPM2_Clear is enabled: AUTH_FAIL").clear_control(RH_LOCKOUT, NO)
tpm("YES").clear_control(RH_LOCKOUT, YES)
is_disabled("TPM2_Clear by lockoutAuth, and by the platform")
tpm("YES again").clear_control(RH_LOCKOUT, YES)
tpm("NO: AUTH_FAIL").clear_control(RH_LOCKOUT, NO)
is_disabled("TPM2_Clear is disabled as before")

case = "That was not a failed try, although the code is AUTH_FAIL"
tpm.lists(case, PROPERTIES, LOCKOUT_COUNTER, 1, [(LOCKOUT_COUNTER, 0)], more=True)
tpm("lockoutAuth is enabled").lock_reset()

for session, words in (
    (tpm.start("A session that is bound to nothing"), "By it"),
    (tpm.start("A session that is bound to TPM_RH_LOCKOUT", RH_LOCKOUT), "By that"),
):
    tpm(f"{words}: NO: AUTH_FAIL").clear_control(RH_LOCKOUT, NO, session)
    tpm(f"{words}: YES").clear_control(RH_LOCKOUT, YES, session)
    wrong_control = wrong(tpm.clear_control(RH_LOCKOUT, NO, session))
    tpm.fails("NO with a wrong hmac: AUTH_FAIL/s1", wrong_control)
    tpm("The wrong hmac has disabled lockoutAuth: LOCKOUT").lock_reset()
    tpm.wait(1_000_000)
    tpm("Time enables lockoutAuth again").lock_reset()
    tpm("The session is flushed").flush(session)

tpm.chapter("DISABLED is the command's own check, which comes after all others.")
says("A byte after the handle: SIZE", *(on_handle(CC.Clear, it, b"\0") for it in BOTH))
tpm("A wrong password of the platform: BAD_AUTH/s1").clearing(RH_PLATFORM, b"x")
tpm("A wrong password of TPM_RH_LOCKOUT, which is counted: AUTH_FAIL/s1").clearing(RH_LOCKOUT, b"x")
tpm("The right password: LOCKOUT").clearing(RH_LOCKOUT)
said = tpm("TPM2_ClearControl with the right password: LOCKOUT")
said.says(*(tpm.clear_control(RH_LOCKOUT, it) for it in (NO, YES)))
tpm.wait(1_000_000)
is_disabled("TPM2_Clear after lockoutRecovery")

tpm.chapter("Sessions, which can encrypt only sized buffers.")
session = tpm.start("An HMAC session with AES", aes=True)
words = "The only parameter is one byte, and the response has none"
for words, attributes in ((f"{words}: ATTRIBUTES/s1", DECRYPTS), (": ATTRIBUTES/s1", ENCRYPTS)):
    prepared = tpm.clear_control(RH_PLATFORM, NO, session)
    tpm.fails(words, prepared.but_entry(1, attributes=attributes))
tpm("The session is flushed").flush(session)

tpm.chapter("The setting survives starts.")
tpm.power_cycle()
is_disabled("TPM2_Clear after TPM2_Startup(CLEAR)")
tpm.saves_and_resumes()
is_disabled("TPM2_Clear after TPM2_Startup(STATE)")
tpm("NO by the platform").clear_control(RH_PLATFORM, NO)
clears("TPM2_Clear")
