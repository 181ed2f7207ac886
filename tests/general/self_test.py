"""Makes self_test.tpm. TPM2_SelfTest runs all tests (YES, 01), or those that were not run yet
(NO, 00). The device has no test that could fail.
"""

from tests.common.steps import Steps
from tests.common.vocabulary import CC, command, frames, number, wrong

tpm = Steps(__name__, __doc__, starts=False)
says = tpm.raw

BOTH = [command(CC.SelfTest, number(it, 1)) for it in (0, 1)]
says("Before TPM2_Startup: INITIALIZE", *BOTH)
tpm.startup()
says("NO, and YES: SUCCESS", *BOTH)
says("Without fullTest: INSUFFICIENT/p1", command(CC.SelfTest, b""))
says(
    "Neither YES nor NO: VALUE/p1", *(command(CC.SelfTest, number(it, 1)) for it in (2, 0x80, 0xFF))
)
says("A byte after fullTest: SIZE", command(CC.SelfTest, b"\1\0"), command(CC.SelfTest, b"\0\1"))
says("Neither YES nor NO, and a byte after fullTest: VALUE/p1", command(CC.SelfTest, b"\2\0"))
case = "A password, as there is nothing to authorize: HANDLE/s1"
says(case, command(CC.SelfTest, frames.area(frames.entry()) + b"\1", frames.SESSIONS))
session = tpm.start("An HMAC session with AES", aes=True)
tpm("TPM2_SelfTest with this session").self_test(1, session)
tpm.refused("A wrong hmac: BAD_AUTH/s1", wrong(tpm.self_test(1, session)))
tpm.encrypts_nothing(lambda: tpm.self_test(1, session))
tpm("Nothing has changed: TPM2_PCR_Read").read_pcr(16)
