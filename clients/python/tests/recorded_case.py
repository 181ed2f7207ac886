"""A test case with a device that records its commands. Tests explain and audit the journal."""

import unittest

from completed_model import RecordedModel
from tpmsim.audit import start
from tpmsim.audit.auditor import Auditor
from tpmsim.audit.log import NoLog
from tpmsim.explain import text
from tpmsim.explain.play import Play
from tests.common.layer import Client


class RecordedCase(unittest.TestCase):
    """A started device with the completing layer, and its client."""

    made, client_of = RecordedModel, Client

    def setUp(self):
        self.device, self.earlier = self.enterContext(self.made()), b""
        self.client = self.client_of(self.device)
        self.tpm = self.client.tpm

    def restart(self, shutdown, startup):
        """Power-cycles the device, which restarts the journal."""
        self.tpm.call("Shutdown", shutdownType=shutdown)
        self.earlier += self.device.journal.text
        self.device.power_cycle()
        self.tpm.start_up(startup)

    def events(self, **given):
        """Returns the explained events of all journals."""
        events = list(Play(**given).events(self.earlier + self.device.journal.text))
        self.assertFalse(any(it.differences for it in events))
        return events

    def last(self, **given):
        """Returns the explanation of the last command."""
        event = self.events(**given)[-1]
        self.assertEqual(bool(event.refused), event.reason is not None)
        words = text.told(event) if event.refused else text.whole(event)
        return " ".join(" ".join(words).split())

    def told(self, buffer, code, *wanted):
        """Checks the response code of a command, and what its explanation contains."""
        self.assertEqual(self.client.code(buffer), code)
        told = self.last()
        for it in wanted:
            self.assertIn(it, told)

    def audited(self):
        """Returns the auditor of the journal. The history of the device must be right."""
        auditor = Auditor(start.of_log(self.device.journal.text, None), NoLog())
        auditor.read(self.device.journal.text)
        self.assertEqual(list(auditor.history.differences(auditor.device)), [])
        return auditor
