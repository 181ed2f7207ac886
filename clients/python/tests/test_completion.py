"""Compares the completing layer in Python with the library's, and tests the explanations of
completed commands.
"""

import pathlib
import random
import re
import tempfile
import unittest

import completed_scripts
from completed_model import RecordedModel
from recorded_case import RecordedCase
from tpmsim.audit import start
from tpmsim.audit.auditor import Auditor, report
from tpmsim.audit.log import Log, NoLog
from tpmsim.caller import HERE, hmac_key, OPEN
from tpmsim.device import KeptDevice, library
from tpmsim.explain import page, text
from tpmsim.explain.play import Play
from tpmsim.model import contexts
from tpmsim.model.completion import Completion
from tpmsim.model.sequences import KINDS
from tpmsim.model.state import CLEAR, STATE
from tpmsim.records import COMPLETED
from tpmsim.standard import lines, RH_PLATFORM
from tpmsim.standard.objects import Attribute

SEEDS, COMMANDS, START = 12, 500, 7

# Seeds whose commands have no power cycle near their end.
LONG = 2, 8

# What is added to an action that an HMAC session authorized. The layer sent the device a command.
BY_SESSION = ", and the device accepts the layer's TPM2_{} by session N"
BY_GET_RANDOM = BY_SESSION.format("GetRandom")

# The actions that the layer may report, with N for each number.
DEEDS = {
    "context N of object N, which stays loaded",
    "context N of session N, which stays in its slot",
    "object N is not there",
    "session N is not there",
    "session N is saved already",
    "session N is saved, and its context is not loaded",
    "N is neither a transient object nor a session",
    "the object of context N is loaded as N",
    "no slot of an object is free",
    "the handle of context N",
    "the session of context N, N, is gone, or is loaded",
    "this layer did not make the context since its start",
    *(words for _, words in contexts.FAULTS),
    "the bytes are not used",
    "no algorithm is left to be tested",
    "all tests succeeded",
    "the digest, and its ticket",
    "the device takes these parameters",
    "the parameters are refused",
    "an empty list with the layer",
    "the properties of PCRs with the layer",
    "the algorithms with the layer",
    "the commands with the layer",
    "the handles with the layer",
    "the properties with the layer",
    "the tag is TPM N.N's, and the answer says that there is none",
    *(f"the {kind} sequence N {did}" for kind in KINDS.values() for did in ("starts", "ends")),
    *(f"the {kind} sequence N is flushed" for kind in KINDS.values()),
    *(f"context N of the {kind} sequence N, which stays loaded" for kind in KINDS.values()),
    *(f"the {kind} sequence of context N is loaded as N" for kind in KINDS.values()),
    *(f"N bytes are added to the {kind} sequence N" for kind in KINDS.values()),
    *(f"the password is not that of the {kind} sequence N" for kind in KINDS.values()),
    "the event sequence N ends with TPM2_EventSequenceComplete",
    "the hash sequence N ends with TPM2_SequenceComplete",
    "the HMAC sequence N ends with TPM2_SequenceComplete",
    "the device refuses the layer's TPM2_HMAC",
    "the device refuses the layer's TPM2_PCR_Extend",
    "the device refuses the layer's TPM2_GetRandom",
    f"the HMAC sequence N starts{BY_SESSION.format('HMAC')}",
    f"the event sequence N ends{BY_SESSION.format('PCR_Extend')}",
    *(f"the {kind} sequence N ends{BY_GET_RANDOM}" for kind in ("hash", "HMAC")),
    *(f"N bytes are added to the {kind} sequence N{BY_GET_RANDOM}" for kind in KINDS.values()),
    "there is no sequence N",
    "N is not the handle of a transient object",
    "an entry is missing",
    "the authorization area is malformed",
    "all N sequences are taken",
    "entry N authorizes nothing",
    "entry N is not a password",
    "entry N is not a password or an HMAC session",
    "entry N has a reserved bit",
    "entry N has an attribute other than continueSession",
}


def deed(words):
    """Returns what the layer did, without numbers and without the refused values."""
    words = re.sub("^(the parameters are refused): .*", r"\1", words)
    return re.sub(r"\b([0-9a-f]{8}|\d+)\b", "N", words)


def recorded(seed, count):
    """Returns the journal of random commands, and the responses to the commands in it."""
    with tempfile.TemporaryDirectory() as folder:
        with KeptDevice(folder, forces=False, completes=True) as device:
            answered = completed_scripts.play(device, random.Random(seed), count, changes=True)
        return pathlib.Path(folder, "journal").read_bytes(), answered


def wrong(event, response):
    """Returns whether the explanation of an event differs from the response."""
    is_refused = any(response[6:10])
    is_said = bool(event.refused), event.reason is not None
    return event.response != response or event.differences or is_said != (is_refused,) * 2


def trace_of(event):
    """Returns the trace of an event as `tpmsim replay` prints it."""
    scene = event.scene
    if event.completes:
        return COMPLETED
    return lines.traced(event.outcome, scene.locality, scene.elapsed)


def in_python(seed, count):
    """Returns the Python device's journal of random commands, and its responses to the commands."""
    with RecordedModel() as device:
        answered = completed_scripts.play(device, random.Random(seed), count, changes=True)
    return device.journal.text, answered


class InPython(unittest.TestCase):
    """Tests journals of the device in Python, which needs no library."""

    recorded = staticmethod(in_python)

    def test_commands_at_random(self):
        """When a journal is explained, each command gets the recorded response. It is explained as
        refused only if it was refused.
        """
        seen = set()
        for seed in range(SEEDS):
            journal, answered = self.recorded(seed, COMMANDS)
            play = Play()
            events = list(play.events(journal))
            self.assertEqual((len(events), play.fault, play.cuts), (len(answered), "", []))
            for event, response in zip(events, answered):
                self.assertFalse(wrong(event, response), f"seed {seed}, line {event.line}")
                seen.add(deed(event.layer))
        self.assertEqual(seen - {""}, DEEDS)

    def test_an_audit(self):
        """The audit counts the layer's responses separately. The device's history contains the
        changes that the layer makes to the device.
        """
        for seed in LONG:
            journal, answered = self.recorded(seed, COMMANDS)
            auditor = Auditor(start.of_log(journal, None), NoLog())
            auditor.read(journal)
            counts = auditor.counts
            self.assertEqual(counts.commands, len(answered))
            self.assertGreater(counts.layer, 0)
            traces = [trace_of(it) for it in Play().events(journal)]
            output = "".join(f"{it}\n{told.hex()}\n" for it, told in zip(traces, answered))
            Auditor(start.of_log(journal, None), Log(output.encode())).read(journal)
            events = Play(answers=output.encode()).events(journal)
            self.assertFalse(any(it.differences for it in events))
            words = f"{counts.refused} refused and {counts.layer} answered by the completing layer"
            self.assertIn(words, "\n".join(report(auditor)))


class OldContexts(RecordedCase):
    """Tests the explanations of why a context that was saved in the log can no longer be loaded."""

    def saved(self, attributes=HERE | OPEN):
        return self.client.saved(self.client.key(template=hmac_key(attributes=attributes)))

    def why(self, context):
        """Returns the explanation of why a context was refused."""
        self.assertEqual(self.client.load_code(context), "1df")
        return self.events()[-1].reason.words

    def test_bytes(self):
        context = self.saved()
        told = self.why(context[:-1] + bytes([context[-1] ^ 1]))
        self.assertTrue(told.endswith(" It differs from the context that line 17 saved."), told)
        told = self.why(bytes(8) + context[8:])
        self.assertTrue(told.endswith(", or may no longer load it."), told)

    def test_clear(self):
        context = self.saved()
        self.tpm.call("Clear", RH_PLATFORM, uses=[b""])
        wanted = "Line 17 saved it; since then TPM2_Clear changed the proof of its hierarchy."
        self.assertIn(wanted, self.why(context))

    def test_power_cycles(self):
        context, st_clear = self.saved(), self.saved(HERE | OPEN | Attribute.ST_CLEAR)
        self.restart(STATE, STATE)
        wanted = "the device had a TPM Restart or a TPM Resume, and the object has stClear."
        self.assertIn(f"Line 27 saved it; since then {wanted}", self.why(st_clear))
        self.restart(CLEAR, CLEAR)
        wanted = "Line 17 saved it; since then a TPM Reset or TPM2_Clear changed resetCount."
        self.assertIn(wanted, self.why(context))
        self.device.completion = Completion(START)
        self.earlier += self.device.journal.text
        self.device.journal.go_on(self.device.completion.numbers)
        self.assertIn("the completing layer has started again", self.why(context))


@unittest.skipUnless(library.is_there(), "there is no library")
class Completed(InPython):
    """Tests journals of the library. Python and the library return the same responses."""

    recorded = staticmethod(recorded)

    def test_words(self):
        """The explanation reports both the layer's response and the device's own response."""
        save, stir = "8001 0000000e 00000162 80000000", "8001 0000000e 00000146 0002 0102"
        with tempfile.TemporaryDirectory() as folder:
            with KeptDevice(folder, forces=False, completes=True) as device:
                for it in ("8001 0000000c 00000144 0000", stir, save):
                    device.execute(bytes.fromhex(it))
            journal = pathlib.Path(folder, "journal").read_bytes()
        counts, play = text.Counts(), Play()
        _, stirred, saved = events = list(play.events(journal))
        for event in events:
            counts.add(event)
        said = "3 commands, 1 of them refused, and 0 power cycles. "
        said += "The completing layer answered 2 of them. 3 answers of the log are the model's."
        self.assertEqual(counts.words(), said)
        own = "The device itself refuses it: COMMAND_CODE (143),"
        told = (
            "line 12: StirRandom is accepted, by the completing layer",
            f"    The completing layer: the bytes are not used. {own}",
            "    by check G4.",
        )
        self.assertEqual(tuple(text.whole(stirred))[:3], told)
        shown = page.of_log("log", Play(), journal, text.Counts())
        self.assertIn(f"The completing layer: the bytes are not used. {own} by check G4.", shown)
        self.assertIn("The completing layer: object 80000000 is not there.", shown)
        title = "line 17: ContextSave is refused: REFERENCE_H0 (910), by the completing layer"
        said = list(text.told(saved))
        self.assertEqual(said[0], title)
        self.assertEqual(sum("object 80000000 is not there" in it for it in said), 1, said)


if __name__ == "__main__":
    unittest.main()
