"""Tests the help text of the audit's command line, and the audit's words for refusals that no
entry causes.
"""

import contextlib
import io
import unittest

from tpmsim.audit import main as command_line
from tpmsim.audit import start
from tpmsim.audit.auditor import Auditor
from tpmsim.audit.log import Disagreement, Log
from tpmsim.audit.auditor import report
from tpmsim.model.player import played


class Help(unittest.TestCase):
    def test_help(self):
        output = io.StringIO()
        with contextlib.redirect_stdout(output):
            status = command_line.main("--help")
        self.assertEqual(status, 0)
        self.assertRegex(output.getvalue(), "^Usage: .* SCRIPT \\[OUTPUT\\] \\[--image START\\]")
        self.assertIn("Check whether the log of a device is consistent", output.getvalue())

    def test_refusals_that_are_no_entrys(self):
        """In the words of tpmsim.explain, the audit says why TPM2_PolicyNV was refused with the
        response code 126.
        """
        script = """do Startup 0
do NV_DefineSpace OWNER pw:- - 01000001000b0002000200000008
do NV_Write OWNER 01000001 pw:- 0000000000000002 0
do StartAuthSession NULL NULL 00112233445566778899aabbccddeeff - 1 null sha256
do PolicyNV OWNER 01000001 03000000 pw:- 0000000000000001 0 9"""
        printed = [line for _, line in played(script.encode())[0]]
        for answered, is_fault in ((printed[-2], False), (printed[-2].replace("A5", "A4"), True)):
            log = "\n".join([*printed[:-2], answered, printed[-1], ""]).encode()
            auditor, fault = Auditor(start.new(), Log(log)), ""
            try:
                auditor.read(script.encode())
            except Disagreement as found:
                fault = str(found)
            words = "UNSIGNED_LE does not hold: 2 <= 1 is false"
            self.assertEqual(fault.endswith(f": {words}"), is_fault)
            if not is_fault:
                refused = "  line 5: PolicyNV is refused: POLICY (126), by check A5"
                self.assertIn(refused, report(auditor))
                self.assertIn(f"    {words}.", report(auditor))
