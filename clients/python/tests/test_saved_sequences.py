"""Tests the explanations of commands that save and load sequences, and their audit.
tests/library/saved_sequences.py tests the responses, and test_contexts.py tests the contexts.
"""

import hashlib
import unittest

from recorded_case import RecordedCase
from tpmsim.model.completion import Completion
from tpmsim.model.state import CLEAR, STATE
from tpmsim.standard import ALG_NULL, RH_PLATFORM, SHA1, SHA256
from tests.common.layer_commands import complete, event_complete, FIRST, load, save, SECOND, start
from tests.common.layer_commands import update

START = 0x1122334455667788


class Explained(RecordedCase):
    def saved(self, algorithm=SHA256):
        """Starts a sequence, and returns its context."""
        return self.client.saved(self.client.started(start(algorithm)))

    def test_words(self):
        for algorithm, kind in ((SHA1, "hash"), (ALG_NULL, "event")):
            context = self.saved(algorithm)
            count = self.device.completion.count
            wanted = f"context {count} of the {kind} sequence 80000008, which stays loaded"
            self.assertIn(wanted, self.last())
            loaded = f"the {kind} sequence of context {count} is loaded as 80000009"
            self.told(load(context), "000", loaded)
            self.client.flush(FIRST, SECOND)
        absent = "ContextSave is refused: REFERENCE_H0 (910)", "object 80000008 is not there"
        self.told(save(FIRST), "910", *absent)

    def test_full_slots(self):
        context = self.saved()
        self.assertEqual([self.client.loaded(context) for _ in range(2)], [SECOND, SECOND + 1])
        refused = "ContextLoad is refused: OBJECT_MEMORY (902)"
        full = "The completing layer answers it: all 3 sequences are taken."
        self.told(load(context), "902", refused, full)

    def test_old_contexts(self):
        """The explanation says why a context that was saved in the log can no longer be loaded."""
        context = self.saved()
        self.restart(STATE, STATE)
        self.client.loaded(context)
        turned = context[:-1] + bytes([context[-1] ^ 1])
        self.told(load(turned), "1df", "It differs from the context that line 17 saved.")
        self.restart(CLEAR, CLEAR)
        wanted = "Line 17 saved it; since then a TPM Reset changed the proof of its hierarchy."
        self.told(load(context), "1df", wanted)

    def test_another_start(self):
        context = self.saved()
        self.device.completion = Completion(START)
        self.earlier += self.device.journal.text
        self.device.journal.go_on(self.device.completion.numbers)
        wanted = "since then the completing layer has started again."
        self.told(load(context), "1df", wanted)

    def test_clear(self):
        context = self.saved()
        self.tpm.call("Clear", RH_PLATFORM, uses=[b""])
        wanted = "since then a TPM Reset or TPM2_Clear changed resetCount."
        self.told(load(context), "1df", wanted)

    def test_an_audit(self):
        """The audit counts both commands as answered by the layer. No object was placed."""
        self.client.loaded(self.saved(ALG_NULL))
        self.client.done(event_complete(16, SECOND, b"data"))
        wanted = hashlib.sha256(bytes(32) + hashlib.sha256(b"data").digest()).digest()
        self.assertEqual(self.device.model.banks[SHA256][16], wanted)
        counts = self.audited().counts
        self.assertEqual((counts.accepted, counts.layer), (2, 3))

    def test_a_journal_with_sequences(self):
        """A journal that begins with saved sequences goes on with them."""
        self.client.done(update(self.client.started(start()), b"data"))
        context = self.client.saved(FIRST)
        self.device.journal.go_on(self.device.completion.numbers)
        loaded = "the hash sequence of context 1 is loaded as 80000009"
        self.told(load(context), "000", loaded)
        response = self.client.send(complete(SECOND, b"end"))
        self.assertEqual(response[16:48], hashlib.sha256(b"dataend").digest())
        self.assertEqual(self.events()[-1].response, response)


if __name__ == "__main__":
    unittest.main()
