"""Makes what_stays.tpm. When a session has ended, the device knows nothing of it. When a counter
is undefined, the device still knows the largest value of all counters.
"""

from tests.common.vocabulary import CC, counter, FIRST, number, RH_LOCKOUT, SECOND, SHA256, Teller
from tests.common.vocabulary import zeros
from tpmsim.model.history import History

tpm = Teller(__name__, __doc__, starts=False)
history = History()
tpm.script.device.tell = history.add


def counts_up_to(value, handle, times):
    for _ in range(times):
        tpm("TPM2_NV_Increment").incrementing(handle)
    tpm.read("TPM2_NV_Read", handle, number(value, 8))


tpm.startup()
tpm.chapter("A new session with the handle of a flushed one has nothing of the old policy.")
session = tpm.policy("A policy session")
tpm("TPM2_PolicyPCR").pcrs(session, [(SHA256, [10])])
tpm("The session is flushed").flush(session)
again = tpm.policy("A policy session, which has the same handle")
assert again.handle == session.handle
tpm.digest_is("TPM2_PolicyGetDigest returns zeros", again, zeros(again))

tpm.chapter("TPM2_Clear removes a counter with the value 3. A new counter begins at 4.")
handle = tpm.define("TPM2_NV_DefineSpace of a counter", counter(FIRST))
counts_up_to(3, handle, 3)
tpm("TPM2_Clear").prepare(CC.Clear, [RH_LOCKOUT], b"", b"")
tpm.forget(handle)
handle = tpm.define("TPM2_NV_DefineSpace of a counter", counter(SECOND))
counts_up_to(4, handle, 1)

tpm.chapter("The counter is undefined, and the power is cycled. A new counter begins at 5.")
tpm("TPM2_NV_UndefineSpace").undefining(handle)
tpm.power_cycle()
handle = tpm.define("TPM2_NV_DefineSpace of a counter", counter(SECOND))
counts_up_to(5, handle, 1)
assert not list(history.differences(tpm.script.device)) and history.counters.all == [1, 2, 3, 4, 5]
