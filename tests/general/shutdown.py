"""Makes shutdown.tpm. TPM2_Shutdown selects the state that is kept for the next TPM2_Startup: with
CLEAR (0000) only what is always kept, with STATE (0001) also PCRs 0 to 15.
"""

from tests.common.steps import Steps
from tests.common.vocabulary import CC, CLEAR, command, frames, number, RH_OWNER, STATE, Use, wrong

tpm = Steps(__name__, __doc__, starts=False)
says = tpm.raw


tpm.says("Before TPM2_Startup, of both kinds: INITIALIZE", *map(tpm.shutting_down, (CLEAR, STATE)))
tpm.startup()
case = "Without shutdownType, and with one byte of it: INSUFFICIENT/p1"
says(case, *(command(CC.Shutdown, bytes(it)) for it in (0, 1)))
tpm.says(
    "Values that are not a shutdownType: VALUE/p1", *map(tpm.shutting_down, (2, 0x100, 0xFFFF))
)
says("A byte after shutdownType: SIZE", command(CC.Shutdown, bytes(3)))
case = "A password, as there is nothing to authorize: HANDLE/s1"
says(case, command(CC.Shutdown, frames.area(frames.entry()) + number(STATE, 2), frames.SESSIONS))
says("No authorization area: AUTHSIZE", command(CC.Shutdown, number(0, 2), frames.SESSIONS))
tpm.power()
tpm("None of these has saved a state, so TPM2_Startup(STATE) fails: VALUE/p1").starting(STATE)

tpm.startup()
tpm("TPM2_Shutdown(CLEAR)").shutting_down(CLEAR)
tpm.says("TPM2_Shutdown(STATE), and once more: SUCCESS", *map(tpm.shutting_down, (STATE, STATE)))
says("TPM2_Shutdown does not stop the device; TPM2_GetRandom: SUCCESS", tpm.random(2).buffer())
tpm("TPM2_PCR_Reset").reset(b"")
tpm("The device cannot be started again without a power cycle: INITIALIZE").starting(CLEAR)
tpm.chapter("The last TPM2_Shutdown counts.")
tpm("TPM2_Shutdown(STATE)").shutting_down(STATE)
tpm("TPM2_Shutdown(CLEAR)").shutting_down(CLEAR)
tpm.resumes_not()
tpm("TPM2_Shutdown(CLEAR)").shutting_down(CLEAR)
tpm.saves_and_resumes()
tpm.chapter("A state is restored once.")
tpm.resumes_not()

tpm.chapter("TPM2_Shutdown with sessions, which authorize nothing here.")
tpm('ownerAuth is "owner"').change_auth(RH_OWNER, b"owner", b"")
session = tpm.start("An HMAC session, bound to TPM_RH_OWNER, with AES", RH_OWNER, aes=True)
policy = tpm.policy("A policy session")
tpm("TPM2_Shutdown(CLEAR) with one session").shutting_down(CLEAR, session)
tpm("TPM2_Shutdown(STATE) with both sessions").shutting_down(STATE, policy, session)
tpm.refused(
    "TPM2_Shutdown(CLEAR) with a wrong hmac: BAD_AUTH/s1", wrong(tpm.shutting_down(CLEAR, session))
)
tpm.encrypts_nothing(lambda: tpm.shutting_down(CLEAR, session))
tpm.resumes("TPM2_Shutdown(STATE) was accepted, so TPM2_Startup(STATE) succeeds")
session = tpm.start("Another session", RH_OWNER)
tpm("The session ends with this command").shutting_down(STATE, Use(session, attributes=0))
tpm("The session no longer exists: REFERENCE_S0").shutting_down(CLEAR, session)
tpm.resumes()
