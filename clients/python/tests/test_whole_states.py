"""Tests logs that begin with a whole state. When such a log is explained, audited or compared, the
sessions, objects, PCRs and policies in the state continue.
"""

import random
import unittest

from journals import Journal
from tpmsim import records
from tpmsim.audit import start
from tpmsim.audit.auditor import Auditor, report
from tpmsim.audit.log import Disagreement, NoLog
from tpmsim.caller import Caller, HERE, sealed, storage_key
from tpmsim.compare.play import Comparison
from tpmsim.device import library, ModelDevice
from tpmsim.explain.of_device import log_of
from tpmsim.explain.play import Play
from tpmsim.model import image, state_text
from tpmsim.model.completion import CONTEXT_LOAD
from tpmsim.model.player import Words
from tpmsim.model.state_text import Layer
from tpmsim.policies.policy_file import digest_of, PolicyFile
from tpmsim.standard import number
from tpmsim.standard.objects import Attribute
from tests.common import places

START = "do Startup 0"
POLICY = f"PolicyPCR sha256:16={bytes(32).hex()}\nPolicyCommandCode NV_Read\n"
DEFINE = "do NV_DefineSpace OWNER pw:- - 01000001000b02080002{}0008".replace(
    "{}", "0020" + digest_of(POLICY).hex()
)
WRITE = "do NV_Write OWNER 01000001 pw:- 3820627974657321 0"
SESSION = (
    "entropy 00112233445566778899aabbccddeeff",
    "do StartAuthSession NULL NULL 00112233445566778899aabbccddeeff - 1 null sha256",
)
PCR, CODE = "do PolicyPCR 03000000 - sha256:16", "do PolicyCommandCode 03000000 0x14e"
READ = "do NV_Read 01000001 01000001 s:03000000:-:01:- 8 0"
EXTEND = "do PCR_Event 00000010 pw:- 01"


def before():
    """Returns a journal of a device that has an index with a policy, and a session that asserted a
    PCR.
    """
    return Journal().play(START, DEFINE, WRITE, *SESSION, PCR)


def gone_on(*lines):
    journal = before()
    journal.go_on()
    return journal.play(*lines)


def judged(text, *policies):
    files = [PolicyFile("policy", it.encode()) for it in policies]
    auditor = Auditor(start.of_log(text, None), NoLog(), files)
    auditor.read(text)
    return auditor, list(report(auditor))


def loaded_twice():
    """Returns a log in which an object is loaded, used with its policy, flushed, and loaded again."""
    device = ModelDevice(seed=b"reloads")
    tpm = Caller(device, random.Random(1).randbytes)
    tpm.start_up()
    parent = tpm.create_primary(storage_key())
    public = sealed(attributes=HERE | Attribute.NO_DA, auth_policy=digest_of("PolicyAuthValue\n"))
    made = tpm.create(parent, public, user_auth=b"PIN", data=b"secret")
    for _ in range(2):
        handle = tpm.load(parent, made)
        tpm.send(tpm.unsealing(handle, tpm.policy("PolicyAuthValue\n")))
        tpm.send(tpm.flush(handle))
    return log_of(device)


class Explained(unittest.TestCase):
    def test_a_session_goes_on(self):
        play = Play()
        events = list(play.events(gone_on(CODE, READ).text))
        self.assertEqual([it.refused for it in events], ["", ""])
        self.assertFalse(any(it.differences or it.is_power for it in events))
        self.assertEqual((play.fault, play.damages), ("", []))

    def test_a_refusal_of_what_was_told_before(self):
        events = list(Play().events(gone_on(EXTEND, CODE, READ).text))
        self.assertEqual(events[-1].refused, "PCR_CHANGED")
        self.assertIn(
            "After its PolicyPCR, before the log, PCRs have moved", events[-1].reason.words
        )
        events = list(Play().events(gone_on(READ).text))
        self.assertEqual(events[-1].refused, "POLICY_FAIL/s1")
        self.assertIn("began before the log", events[-1].reason.words)

    def test_one_head_after_another(self):
        """If a head contains the state at the end of the previous log, it continues that log, and
        everything that was known remains known.
        """
        first = before()
        text = first.text
        first.go_on()
        events = list(Play().events(text + first.play(READ).text))
        self.assertFalse(any(it.differences or it.is_power for it in events))
        self.assertIn("told by", " ".join(map(str, events[-1].reason.facts)))

    def test_another_device(self):
        """If a later head belongs to another device, only the state in that head is known, and that
        device's power is already on.
        """
        text = Journal().play(START).text + gone_on(CODE, READ).text
        play = Play()
        events = list(play.events(text))
        self.assertEqual([it.refused for it in events], ["", "", ""])
        self.assertEqual((play.fault, play.damages), ("", []))

    def test_the_completing_layer(self):
        """The layer knows the contexts that the state text lists."""
        journal = Journal().play(START, *SESSION)
        layer = Layer(start=7, count=1)
        layer.sessions[0] = 1
        journal.go_on(layer)
        play = Play()
        list(play.events(journal.text))
        context = play.layer.token(0x03000000, 1)
        buffer = b"\x80\x01" + number(10 + len(context), 4) + number(CONTEXT_LOAD, 4) + context
        event = play.command(buffer, 0, b"", 0, completes=True)
        self.assertEqual(event.response[10:].hex(), "03000000")

    def test_a_head_of_version_1(self):
        journal = Journal().play(START)
        body = state_text.device_text(journal.model) + b"\0"
        journal.head(2, image.digested(state_text.VERSION_1, body, state_text.MAGIC))
        text, play = journal.play(*SESSION).text, Play()
        self.assertEqual(list(play.events(text)), [])
        self.assertEqual(play.fault, "line 1 begins with what is no image: Earlier")

    def test_heads_that_are_damaged(self):
        text = gone_on(CODE).text
        head = "line 1: the head is damaged: "
        for good, bent, damage, fault in (
            (b"journal 2", b"journal 1", "it holds a state text", ""),
            (b"5450", b"5550", "its sums are others", "line 1 begins with what is no image: Magic"),
        ):
            play = Play()
            list(play.events(text.replace(good, bent, 1)))
            self.assertEqual((play.damages, play.fault), ([head + damage], fault))
        steps = list(records.steps_of(text[: text.index(b"\n")]))
        self.assertEqual(steps, [records.BadHead(2)])


class Judged(unittest.TestCase):
    def test_a_policy(self):
        """The policy digest in the state covers the assertions that were made before the log began."""
        auditor, told = judged(gone_on(CODE, READ).text, POLICY)
        self.assertEqual(auditor.policies.faults(), [])
        words = "policy line 1, PolicyPCR: a line before the log asserts it, and the PCRs have these values"
        self.assertTrue(any(it.strip().startswith(words) for it in told))

    def test_a_refusal(self):
        """A PCR is written after the state was saved, so the session no longer satisfies its
        policy.
        """
        auditor, told = judged(gone_on(EXTEND, CODE, READ).text, POLICY)
        self.assertEqual(auditor.policies.faults(), [])
        words = "refused by PCR_CHANGED: line 7 wrote a PCR after its first TPM2_PolicyPCR, before the log"
        self.assertTrue(any(it.endswith(words) for it in told))

    def test_another_device(self):
        """A later head must have the state of the device before it. Otherwise, the audit ends
        there.
        """
        with self.assertRaises(Disagreement):
            judged(Journal().play(START).text + gone_on(CODE).text)
        first = before()
        text = first.text
        first.go_on()
        auditor, _ = judged(text + first.play(CODE, READ).text, POLICY)
        self.assertEqual((auditor.counts.power_cycles, auditor.policies.faults()), (0, []))

    def test_an_index_after_power_cycles(self):
        """Each use in each journal is audited, also after power cycles."""
        journal = before().play(CODE, READ)
        text = journal.text
        journal.begin()
        journal.play(START, *SESSION, PCR, CODE, READ)
        auditor, told = judged(text + journal.text, POLICY)
        self.assertEqual(auditor.policies.faults(), [])
        self.assertEqual(sum(it.endswith(" meets it") for it in told), 2)
        _, told = judged(journal.text, POLICY)
        self.assertIn("  01000001, an NV index of bytes of the image", " ".join(told))

    def test_an_object_that_is_loaded_again(self):
        auditor, told = judged(loaded_twice(), "PolicyAuthValue\n")
        self.assertEqual(auditor.policies.faults(), [])
        self.assertTrue(any("by its Name the one of line" in it for it in told))


class AtRandom(unittest.TestCase):
    """Random scripts whose journals restart with the whole state. Each journal is a log of its own,
    and all of them in sequence are also one log.
    """

    SCRIPTS = "lost_grounds", "lockout_sessions", "startup_state"

    def logs_of(self, name):
        chance, journal, words = random.Random(name), Journal(), Words()
        for line in places.script(name).read_bytes().splitlines():
            if line == b"power":
                yield journal.text, journal.responses
                journal.begin()
            elif words.take(line) is not None and chance.random() < 0.03:
                yield journal.text, journal.responses
                journal.go_on()
            if line != b"power":
                journal.play(line.decode())
        yield journal.text, journal.responses

    def explained(self, text):
        play = Play()
        events = [it for it in play.events(text) if not it.is_power]
        self.assertEqual((play.fault, play.damages), ("", []))
        self.assertFalse(any(it.differences for it in events))
        self.assertTrue(all((it.reason is None) == (not it.refused) for it in events))
        return [it.response for it in events]

    def test_each_log(self):
        for name in self.SCRIPTS:
            with self.subTest(name):
                logs = list(self.logs_of(name))
                self.assertGreater(len(logs), 3)
                for text, responses in logs:
                    self.assertEqual(self.explained(text), responses)
                    judged(text)
                whole = b"".join(text for text, _ in logs)
                self.assertEqual(self.explained(whole), [it for _, those in logs for it in those])
                judged(whole)


class Compared(unittest.TestCase):
    @unittest.skipUnless(library.is_there(), "there is no library")
    def test_a_state_is_no_new_tpm(self):
        with self.assertRaises(ValueError):
            Comparison(None).play(gone_on(CODE).text)
