"""Wrong Python devices with one error each. The audit compares each device's log with the same
wrong device, and also judges the log by policies in words:

    wrong_policies.py POLICIES

POLICIES contains a folder of policies for each script. For each device the program prints what the
audit finds. Then it audits only the policies, and prints each use that does not satisfy its policy.
The status is 1 if either audit finds nothing.
"""

import pathlib
import sys
from contextlib import ExitStack
from unittest import mock

import wrong_devices as wrong  # makes the parts of the device and of the audit importable

from tpmsim.audit.auditor import Auditor
from tpmsim.audit.ground import Finding
from tpmsim.audit.ground import Grounds
from tpmsim.audit.uses import Uses
from tpmsim.model.general import Answer
from tpmsim.policies.policy_file import PolicyFile
from tpmsim.standard import CC, policy
from tests.python.cases import audited, printed

LOST, WRITTEN = "lost_grounds", "written_policies"


def or_of_any_digest(self, request):
    """Executes TPM2_PolicyOR, but does not check that the session's policy digest is one of the
    branches.
    """
    branches = request.parameters.next().sized_list(policy.LEAST_BRANCHES, policy.MOST_BRANCHES)
    session = self.sessions[request.handles[0]]
    session.policy.digest = policy.after_or(session.algorithm, branches)
    return Answer()


def does_nothing(self, request):
    return Answer()


WRONG = (
    ("PCRs may change after TPM2_PolicyPCR", LOST, wrong.in_policies("PCR_CHANGED")),
    ("the same", WRITTEN, wrong.in_policies("PCR_CHANGED")),
    ("any command code will do", LOST, wrong.in_policies("POLICY_CC")),
    ("the same", WRITTEN, wrong.in_policies("POLICY_CC")),
    ("any locality will do", LOST, wrong.in_policies("LOCALITY")),
    ("the same", WRITTEN, wrong.in_policies("LOCALITY")),
    ("an index may be written or not", LOST, wrong.in_policy(wrong.written_or_not)),
    ("the same", WRITTEN, wrong.in_policy(wrong.written_or_not)),
    ("any cpHash will do", WRITTEN, wrong.in_policy(wrong.any_cp_hash)),
    ("a trial session authorizes", LOST, wrong.in_policies("ATTRIBUTES")),
    ("any digest will do", LOST, wrong.in_policies("POLICY_FAIL")),
    ("the same", WRITTEN, wrong.in_policies("POLICY_FAIL")),
    ("any value will do", LOST, wrong.in_device("accepts", wrong.always)),
    ("the same", WRITTEN, wrong.in_device("accepts", wrong.always)),
    ("a policy stays when it was used", WRITTEN, wrong.in_device("end_use", wrong.keeps_policy)),
    ("TPM2_PolicyRestart does nothing", WRITTEN, wrong.in_rows(CC.PolicyRestart, does_nothing)),
    ("TPM2_PolicyOR takes any digests", WRITTEN, wrong.in_rows(CC.PolicyOR, or_of_any_digest)),
)


def policies_alone():
    """Turns off two parts of the audit: its check of what authorizes each command, and the
    comparison of the device with its history.
    """
    stack = ExitStack()
    ground = Finding(True, "it is not judged")
    stack.enter_context(mock.patch.object(Grounds, "findings", lambda *_: [ground]))
    stack.enter_context(mock.patch.object(Uses, "refuse", lambda *_: None))
    stack.enter_context(mock.patch.object(Auditor, "follow", lambda *_: None))
    return stack


def files_of(folder):
    return [PolicyFile(it.name, it.read_bytes()) for it in sorted(folder.iterdir())]


def main(folder):
    missed = 0
    files = {it: files_of(pathlib.Path(folder) / it) for it in (LOST, WRITTEN)}
    for name, given in files.items():
        script = wrong.script_of(name)
        auditor, fault = audited(script, printed(script), given)
        assert fault is None and not auditor.policies.faults(), name
    for words, name, patch in WRONG:
        script = wrong.script_of(name)
        with patch:
            output = printed(script)
            auditor, fault = audited(script, output, files[name])
            with policies_alone():
                alone, stopped = audited(script, output, files[name])
        assert stopped is None, stopped
        found = fault or next(iter(auditor.policies.unmet()), None)
        missed += found is None or not alone.policies.unmet()
        print(f"{words}, {name}.tpm: {found or 'nothing is found'}")
        print(*(f"    {it}" for it in alone.policies.unmet()), sep="\n")
    return 1 if missed else 0


if __name__ == "__main__":
    sys.exit(main(*sys.argv[1:]))
