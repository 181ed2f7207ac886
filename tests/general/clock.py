"""Makes clock.tpm. TPM2_ReadClock returns time, in milliseconds since the power cycle; clock,
since manufacture or TPM2_Clear; resetCount and restartCount; and that the clock is safe (01),
because it never goes back. The numbers of eight bytes are so large that no script can wait until
they reach their maximum.
"""

from tests.common.steps import Steps
from tests.common.vocabulary import CC, CLEAR, command, frames, number, STATE

MOST = 2**32 - 1

tpm = Steps(__name__, __doc__, starts=False)
says, is_now = tpm.raw, tpm.clock_is


def time():
    tpm.chapter("Time passes before each command is executed.")
    tpm.wait(1)
    tpm.wait(2)
    is_now("Three milliseconds pass, in two lines", 8, 8, 1, 0)
    tpm.wait(100)
    tpm("TPM2_GetRandom, after 100").random(2)
    tpm.wait(1000)
    says("The empty buffer, after 1,000: COMMAND_SIZE", b"")
    tpm.wait(10_000)
    says("A command that is not served, after 10,000: COMMAND_CODE", command(0x0146, b"\0\0"))
    is_now("All these milliseconds have passed", 11_108, 11_108, 1, 0)
    tpm.wait(MOST)
    tpm("TPM2_GetRandom, after 4,294,967,295").random(2)
    tpm.wait(MOST)
    is_now("The same time passes again", 11_108 + 2 * MOST, 11_108 + 2 * MOST, 1, 0)


says("Before TPM2_Startup: INITIALIZE", command(CC.ReadClock, b""))
tpm.startup()
tpm.wait(5)
is_now("TPM2_ReadClock five milliseconds later", 5, 5, 1, 0)
says("A byte after the header: SIZE", command(CC.ReadClock, b"\0"))
case = "TPM2_ReadClock with an authorization area, right or wrong: AUTH_CONTEXT"
areas = frames.area(frames.entry()), number(0, 4), b""
says(case, *(command(CC.ReadClock, it, frames.SESSIONS) for it in areas))
is_now("None of these commands took any time", 5, 5, 1, 0)

time()

clock = 11_108 + 2 * MOST
tpm.chapter("After a power cycle Time starts at 0, and Clock continues.")
tpm.power()
tpm.wait(3)
tpm("TPM2_GetRandom, after 3: INITIALIZE").random(2)
tpm.wait(4)
tpm.startup()
is_now("Time has passed before TPM2_Startup too, which was a reset", 7, clock + 7, 2, 0)
tpm.chapter("A wait counts for the next command, even if power is cycled in between.")
tpm.wait(10)
tpm.power()
tpm.wait(10)
tpm.startup()
is_now("20 milliseconds have passed since then", 20, clock + 27, 3, 0)
clock = clock + 27

tpm.chapter("Resets, restarts and resumes.")
tpm.saves_and_resumes("TPM2_Startup(STATE), a resume")
is_now("resetCount stays, restartCount is 1", 0, clock, 3, 1)
tpm.saves()
tpm.power()
tpm.start_up("TPM2_Startup(CLEAR), a restart, as a state was saved")
is_now("restartCount is 2", 0, clock, 3, 2)
tpm.power()
tpm.start_up("TPM2_Startup(CLEAR) without TPM2_Shutdown, a reset")
is_now("resetCount is 4, restartCount 0", 0, clock, 4, 0)
tpm("TPM2_Shutdown(CLEAR)").shutting_down(CLEAR)
tpm.power()
tpm.start_up("TPM2_Startup(CLEAR) after TPM2_Shutdown(CLEAR), a reset too")
is_now("resetCount is 5", 0, clock, 5, 0)
tpm.saves()
tpm.power()
tpm("A wrong type: VALUE/p1").starting(2)
tpm.start_up("TPM2_Startup(STATE)", STATE)
is_now("The refused TPM2_Startup has counted nothing", 0, clock, 5, 1)
tpm.saves()
tpm.power()
tpm.resumes("TPM2_Startup(STATE) after two power cycles")
is_now("ReadClock reports one resume", 0, clock, 5, 2)
tpm.saves()
tpm("TPM2_PCR_Reset cancels the saved state").reset(b"")
tpm.power()
tpm.start_up("TPM2_Startup(CLEAR), a reset")
is_now("resetCount is 6", 0, clock, 6, 0)
