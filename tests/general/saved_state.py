"""Makes saved_state.tpm. A state that TPM2_Shutdown(STATE) saved can be used by the next
TPM2_Startup until a command discards it. Every command that succeeds discards it, except those that
change nothing. Here each command follows a TPM2_Shutdown(STATE). TPM2_Startup(STATE) after a power
cycle then shows whether the state was still there.
"""

from tpmsim.caller.examples import EXAMPLES
from tpmsim.standard import Fact
from tests.common.examples import ScriptScene
from tests.common.steps import Steps
from tests.common.vocabulary import area, BY_VALUE, CC, CLEAR, RH_NULL, SHA256, Use, wrong

tpm = Steps(__name__, __doc__)
scene = ScriptScene(tpm)


def start_again(is_kept):
    """Power-cycles the device. TPM2_Startup(STATE) must succeed only if the saved state was kept."""
    if is_kept:
        tpm.resumes("It was kept: TPM2_Startup(STATE)")
    else:
        tpm.resumes_not("It was cancelled: TPM2_Startup(STATE): VALUE/p1")


scene.define_indices()

tpm.chapter("A second TPM2_Shutdown replaces the first one.")
tpm.saves()
tpm("TPM2_Shutdown(CLEAR)").shutting_down(CLEAR)
start_again(is_kept=False)
tpm.chapter("A refused command cancels nothing, not even if it counts as a failed try.")
tpm.define("An index", area(0x0100_0007, BY_VALUE), auth=b"a")
hmac = tpm.start("An HMAC session")
tpm.saves()
tpm("A wrong password: AUTH_FAIL/s1").writing(0x0100_0007, b"x", b"b")
tpm("TPM2_PCR_Reset of PCR 0: LOCALITY").reset(b"", pcr=0)
tpm("TPM2_Startup: INITIALIZE").starting(CLEAR)
tpm.refused("A wrong hmac: BAD_AUTH/s1", wrong(tpm.reset(hmac)))
tpm.raw("The empty buffer: COMMAND_SIZE", b"")
start_again(is_kept=True)
tpm.chapter("The use of sessions cancels nothing, unless the command does.")
hmac = tpm.start("An HMAC session")
other = tpm.start("Another session")
tpm.saves()
tpm("TPM2_GetRandom with both").random(8, hmac, other)
tpm("TPM2_GetRandom with a session that ends").random(8, Use(other, attributes=0))
start_again(is_kept=True)
tpm.chapter("TPM2_PCR_Extend on TPM_RH_NULL changes nothing, but cancels the saved state.")
tpm.saves()
tpm("TPM2_PCR_Extend").command("PCR_Extend", RH_NULL, digests=[(SHA256, bytes(32))])
start_again(is_kept=False)
tpm.chapter("Power cycles and time do not cancel the saved state.")
tpm.saves()
tpm.power()
tpm.power()
tpm.wait(2**32 - 1)
tpm.raw("TPM2_GetRandom: INITIALIZE", tpm.random(2).buffer())
start_again(is_kept=True)

for code, example in EXAMPLES.items():
    if code in (CC.Startup, CC.Shutdown):
        continue
    is_kept = code.has(Fact.KEEPS_SAVED)
    tpm.chapter(f"TPM2_{code.name} {'keeps' if is_kept else 'cancels'} it.")
    prepared = example(scene)
    tpm.saves()
    tpm.accepted(f"TPM2_{code.name}", prepared)
    start_again(is_kept)
