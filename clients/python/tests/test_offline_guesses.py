"""Tests the reports about values that can be guessed without the device. The explanation and the
audit report a value that is used to encrypt although the caller did not have to know it. They do
not report ordinary encryption.
"""

import unittest

from tpmsim.audit import start
from tpmsim.audit.auditor import Auditor, report
from tpmsim.audit.log import Log
from tpmsim.explain.play import Play
from tpmsim.model.player import played
from tpmsim.standard import ENCRYPT
from tests.common import places

NAMES = "offline_guesses", "session_encryption", "object_policies"
ATTACK, ORDINARY, NO_VALUE = (it.read_bytes() for it in places.named(*NAMES))

TITLE = "Values of which guesses need no try"
BOUND = "is bound to LOCKOUT, and encrypts an answer to a command that does not require"


def guessed(script):
    """Returns the reports about values that can be guessed, with their lines."""
    events = Play().events(script)
    return [
        (it.line, note.slips[0]) for it in events for note in it.notes if note.rule == "guesses"
    ]


def encrypting(script):
    """Returns the number of entries that encrypt in a session bound to a nonempty value."""
    play, many = Play(), 0
    for event in play.events(script):
        for _, entry, _ in event.scene.known.places if event.scene.known else []:
            session = play.model.sessions.get(entry.handle)
            is_bound = session is not None and bool(session.bind_auth)
            many += is_bound and bool(entry.attributes & ENCRYPT)
    return many


def audited(script):
    """Returns the report of an audit."""
    log = "".join(f"{line}\n" for _, line in played(script)[0])
    auditor = Auditor(start.new(), Log(log.encode()))
    auditor.read(script)
    return list(report(auditor))


class OfflineGuesses(unittest.TestCase):
    """A value that is used to encrypt is reported if the caller did not have to know it."""

    def test_attack(self):
        slip = "guesses of a bound value need no try"
        lines = [at for at, it in guessed(ATTACK) if it == slip]
        self.assertEqual(len(lines), 2)
        told = audited(ATTACK)
        rows = told[told.index(TITLE) + 1 :]
        for line, row in zip(lines, rows):
            self.assertTrue(row.startswith(f"  line {line}: Unseal: The session of entry 1 "))
        self.assertIn(BOUND, rows[0])
        self.assertIn("is bound to 80000000, and encrypts", rows[1])

    def test_policy_that_asks_for_no_value(self):
        slips = [slip for _, slip in guessed(NO_VALUE)]
        self.assertEqual(slips, ["guesses of a used value need no try"])
        told = audited(NO_VALUE)
        row = told[told.index(TITLE) + 1]
        self.assertIn("by a policy that does not require its authValue, and encrypts", row)

    def test_ordinary_encryption(self):
        self.assertGreater(encrypting(ORDINARY), 0)
        self.assertEqual(guessed(ORDINARY), [])
        self.assertNotIn(TITLE, audited(ORDINARY))


if __name__ == "__main__":
    unittest.main()
