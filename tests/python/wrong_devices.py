"""Wrong Python devices with one error each, and for each device a script that shows the error. The
audit compares a wrong device with its own output, so that only the history can reveal the error.

    wrong_devices.py

The program prints the fault that the audit finds for each device. The status is 1 if the audit
misses the error of a device.
"""

import functools
import sys
from dataclasses import replace
from unittest import mock

from tpmsim.model import machine, policy_state
from tpmsim.model.general import Refusal
from tpmsim.model.machine import Model
from tpmsim.model.protection import Lockout
from tpmsim.standard import CC, frames, policy
from tests.common import places
from tests.python.cases import audited, printed

check_use, accepts, nv_increment = policy_state.check_use, Model.accepts, Model.nv_increment
restore_pcrs, start_session = Model.restore_pcrs, Model.start_auth_session


def unless(refused):
    """Returns a function that checks the use of a policy, but ignores refusals with this response
    code.
    """

    def checked(session, entity, use, place):
        try:
            check_use(session, entity, use, place)
        except Refusal as refusal:
            if refusal.name.partition("/")[0] != refused:
                raise

    return checked


def any_cp_hash(session, entity, use, place):
    """Checks the use of a policy, but accepts any cpHash."""
    told = session.policy.cp_hash
    return check_use(session, entity, replace(use, cp_hash=told or use.cp_hash), place)


def written_or_not(session, entity, use, place):
    """Checks the use of a policy, but not whether an index must be written."""
    return check_use(session, entity, replace(use, written=session.policy.nv_written), place)


def takes_any_password(self, command, place, entry, handle):
    is_password = entry.handle == frames.RS_PW or entry.demand == policy.PASSWORD
    return is_password or accepts(self, command, place, entry, handle)


def takes_no_hmac(self, command, place, entry, handle):
    is_empty = entry.handle != frames.RS_PW and not entry.hmac
    return is_empty or accepts(self, command, place, entry, handle)


def keeps_policy(self, entry, handle):
    if entry.handle != frames.RS_PW and not entry.attributes & frames.CONTINUE_SESSION:
        del self.sessions[entry.handle]


def restores_16_too(self):
    restore_pcrs(self)
    for bank in self.banks.values():
        bank[16] = max(bank[:16])


def counts_from_1(self, request):
    if not self.indices[request.handles[1]].data:
        self.largest_counter = 0
    return nv_increment(self, request)


def keeps_a_digest(self, request):
    """Starts a session with the policy digest of another session, if there is one."""
    was = next((it.policy.digest for it in self.sessions.values()), None)
    answer = start_session(self, request)
    session = self.sessions[int.from_bytes(answer.handle, "big")]
    session.policy.digest = was or session.policy.digest
    return answer


def in_rows(code, row):
    """Returns a patch that changes the effect of a command."""
    return mock.patch.dict(machine.ROWS, {code: row})


def in_device(name, method):
    return mock.patch.object(Model, name, method)


def in_policy(check):
    return mock.patch.object(policy_state, "check_use", check)


def in_policies(refused):
    return in_policy(unless(refused))


def always(*_):
    return True


def nothing(*_):
    return None


BOUND = in_device("is_bound", lambda self, session, handle: session.bind == self.name(handle))
MASKS = in_device("encryption_key", lambda self, session, handle: session.key)
BEGINS = in_rows(CC.StartAuthSession, keeps_a_digest)
WRONG = (
    ("a trial session authorizes", "object_policies", in_policies("ATTRIBUTES")),
    ("PCRs may change after TPM2_PolicyPCR", "callers_in_turn", in_policies("PCR_CHANGED")),
    ("any command code will do", "nv_policies", in_policies("POLICY_CC")),
    ("any locality will do", "object_policies", in_policies("LOCALITY")),
    ("any digest will do", "object_policies", in_policies("POLICY_FAIL")),
    ("an index may be written or not", "policy_nv_written", in_policy(written_or_not)),
    ("any cpHash will do", "policy_cp_hash", in_policy(any_cp_hash)),
    ("what has no policy is authorized by one", "clear", in_policies("AUTH_UNAVAILABLE")),
    ("any password will do", "passwords", in_device("accepts", takes_any_password)),
    ("an empty hmac will do", "hmac_sessions", in_device("accepts", takes_no_hmac)),
    (
        "a value authorizes what has no userWithAuth",
        "nv_access",
        in_device("takes_auth_value", always),
    ),
    ("a session is bound whatever the value is", "hmac_sessions", BOUND),
    ("masks are made without the authorization value", "xor_sessions", MASKS),
    ("nonces stay", "callers_in_turn", in_device("draw_nonces", nothing)),
    ("a policy stays when it was used", "nv_policies", in_device("end_use", keeps_policy)),
    ("a session begins with a digest", "policy_sessions", BEGINS),
    ("PCR 16 is saved too", "startup_state", in_device("restore_pcrs", restores_16_too)),
    ("a counter begins at 1", "nv_counters", in_rows(CC.NV_Increment, counts_from_1)),
    ("guesses are not counted", "lockout", mock.patch.object(Lockout, "count", nothing)),
    ("guesses are no guesses", "lockout", in_device("touched", nothing)),
)


def script_of(name):
    return places.script(name).read_bytes()


def fault_of(name):
    """Returns the fault that the audit finds in the output for a script of the Python device,
    including any patches to it.
    """
    script = script_of(name)
    return audited(script, printed(script))[1]


@functools.cache
def check_right_device(name):
    """Checks that the audit finds no fault for the right device."""
    assert fault_of(name) is None


def main():
    missed = 0
    for words, name, patch in WRONG:
        check_right_device(name)
        with patch:
            fault = fault_of(name)
        missed += fault is None
        print(f"{words}, {name}.tpm: {fault or 'nothing is found'}")
    return 1 if missed else 0


if __name__ == "__main__":
    sys.exit(main())
