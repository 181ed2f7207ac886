"""Plays scripts on this device and on a second TPM. The second TPM is either another TPM, or a
device with different seeds, which must show no difference.
"""

import pathlib
import random
import shutil
import tempfile
import unittest

from tpmsim.compare.differences import cause_of
from tpmsim.compare.main import other_tpm, told
from tpmsim.compare.play import Comparison
from tpmsim.caller import Caller, hmac_key
from tpmsim.device import Answered, Device, KeptDevice, library, StartedSwtpm
from tpmsim.device.base import Executed
from tpmsim.model.completion import CONTEXT_LOAD, CONTEXT_SAVE
from tpmsim.model.machine import Model
from tpmsim.model.sequence_commands import HANDLES, HASH_SEQUENCE_START, HMAC_START
from tpmsim.model.sequence_commands import SEQUENCE_COMPLETE, SEQUENCE_UPDATE
from tpmsim.standard import CC, command, frames, number, on_handle, RH_NULL, SHA256, sized
from tpmsim.standard import TRANSIENT
import completed_scripts
from completed_model import CompletedModel, RecordedModel
from journals import Journal
from programs import PATIENCE
from tests.common import places

# Scripts with sessions of all kinds, policies, objects, guesses and waits.
SCRIPTS = (
    *("hmac_sessions", "xor_sessions", "session_encryption", "policy_sessions_that_encrypt"),
    *("policy_secret", "object_policies", "nv_sessions", "lockout", "lockout_sessions", "waits"),
    *("sealed_to_pcrs", "private_area", "replays", "localities", "saved_state", "clear"),
)

DEFINE = "do NV_DefineSpace OWNER pw:- - 01000001000b0002000200000008"


def script(name):
    """Returns the bytes of the script with this name."""
    return places.script(name).read_bytes()


class OtherSeeds(unittest.TestCase):
    """Session values are recomputed, so a device with different seeds and nonces has the same
    outcomes.
    """

    def test_nothing_differs(self):
        for name in SCRIPTS:
            with self.subTest(name), Device() as other:
                report = Comparison(other).play(script(name))
                self.assertEqual(report.differences, [])
                self.assertLess(len(report.not_comparable), report.commands / 4)

    def test_a_difference_is_told(self):
        """A device with different responses is detected. The report says which later differences
        follow from the first.
        """

        class Bent(type(Device())):
            def execute(self, buffer):
                answered = super().execute(buffer)
                if buffer[6:10] == number(0x131, 4):
                    return Answered(number(0x8001, 2) + number(10, 4) + number(0x902, 4))
                return answered

        script = b"""do Startup 0
do CreatePrimary NULL pw:- 0000000178 0008000b00000452000000100000 - -
do Unseal 80000000 pw:-
do GetRandom 4
"""
        with Bent() as other:
            report = Comparison(other).play(script)
        lines = (
            "line 2: CreatePrimary: code: here success, there OBJECT_MEMORY",
            "line 3: not comparable: 80000000 is not there, because of line 2",
            "4 commands, 1 differences, 0 that follow, 1 not comparable",
        )
        self.assertEqual(told(pathlib.Path("script"), report), [f"script: {it}" for it in lines])

    def test_journals(self):
        """A journal of a new device is played, whatever its seeds. Other journals are refused."""
        for begin in Journal.cycle, Journal.begin:
            journal = Journal(Model(bytes(256)))
            journal.play("do Startup 0", DEFINE, "do GetRandom 4")
            with Device() as other:
                report = Comparison(other).play(journal.text)
            self.assertEqual((report.commands, report.differences), (3, []))
            before = journal.text
            begin(journal)
            with Device() as other:
                report = Comparison(other).play(before + journal.play("do Startup 0").text)
            self.assertEqual((report.commands, report.differences), (4, []))
        with Device() as other:
            words = "line 2 begins with a device that no other TPM can be made"
            text = b"# a head of its own follows\n" + journal.text
            self.assertRaisesRegex(ValueError, words, Comparison(other).play, text)

    def test_state_texts(self):
        """A log may begin with a state text whose device was just powered on."""
        journal = Journal(Model(bytes(256)))
        journal.go_on()
        journal.play("do Startup 0", "do GetRandom 4")
        with Device() as other:
            report = Comparison(other).play(journal.text)
        self.assertEqual((report.commands, report.differences), (2, []))
        journal.go_on()
        with Device() as other:
            words = "line 1 begins with a device that no other TPM can be made"
            self.assertRaisesRegex(ValueError, words, Comparison(other).play, journal.text)


class InPython(unittest.TestCase):
    """Compares a journal of the device in Python, which was made with the completing layer, with
    another device in Python that has the layer.
    """

    def recorded(self, play):
        with RecordedModel() as device:
            device.journal.go_on(device.completion.numbers)
            play(device)
        return device.journal.text

    def compared(self, journal):
        with CompletedModel(model=Model(bytes(256))) as other:
            return Comparison(other).play(journal)

    def test_commands_at_random(self):
        """Compares journals of random commands. A power cycle restarts a journal, so some journals
        contain fewer commands.
        """
        commands = 0
        for seed in range(4):
            chance = random.Random(seed)
            journal = self.recorded(lambda it: completed_scripts.play(it, chance, 300, 1))
            report = self.compared(journal)
            self.assertEqual(report.differences, [])
            self.assertLess(len(report.not_comparable), 30)
            commands += report.commands
        self.assertGreater(commands, 800)


@unittest.skipUnless(library.is_there(), "there is no library")
class Completed(InPython):
    """Compares a journal with another TPM. The journal was made with the completing layer; the
    other TPM supports contexts itself.
    """

    def recorded(self, play):
        with tempfile.TemporaryDirectory() as folder:
            with KeptDevice(folder, forces=False, completes=True) as device:
                play(device)
            return pathlib.Path(folder, "journal").read_bytes()

    def compared(self, journal):
        with tempfile.TemporaryDirectory() as folder:
            with KeptDevice(folder, forces=False, completes=True) as other:
                return Comparison(other).play(journal)

    def test_an_object_with_another_handle(self):
        """The other TPM loads an object's context with a different handle, which its later commands
        use.
        """
        journal = self.recorded(contexts_that_move)
        with Moved(model=Model(bytes(256))) as other:
            report = Comparison(other).play(journal)
        self.assertEqual((report.differences, report.not_comparable), ([], []))

    def test_an_object_that_only_one_loads(self):
        """The other TPM has no free slot for the object of a context, which then exists only on
        this device.
        """
        journal = self.recorded(contexts_that_move)
        with Full(model=Model(bytes(256))) as other:
            report = Comparison(other).play(journal)
        differences = [(it.command, it.here, it.there) for it in report.differences]
        self.assertEqual(differences, [("ContextLoad", "success", "OBJECT_MEMORY")] * 2)
        self.assertEqual(len(report.not_comparable), 4)


class Moved(CompletedModel):
    """Another TPM, which uses the last slots for its objects. Their handles are at offset 10 in the
    commands and responses of `contexts_that_move`.
    """

    def answer(self, buffer, locality, elapsed, random):
        event = super().answer(moved(buffer, -4), locality, elapsed, random)
        return Executed(buffer, moved(event.response, 4), locality, elapsed, random)


def moved(text, count):
    if text[10:11] != bytes([TRANSIENT]):
        return text
    return text[:10] + number(int.from_bytes(text[10:14], "big") + count, 4) + text[14:]


class Full(CompletedModel):
    """Another TPM, which never has a slot for the object of a context."""

    def answer(self, buffer, locality, elapsed, random):
        if buffer[6:10] == number(CONTEXT_LOAD, 4):
            return Executed(buffer, frames.refusal(0x902), locality, elapsed, random)
        return super().answer(buffer, locality, elapsed, random)


def contexts_that_move(device):
    """Makes two keys, and loads their contexts in reverse order, like tools that work without
    handles.
    """
    tpm = Caller(device)
    tpm.start_up()
    contexts = []
    for value in (b"one", b"two"):
        handle = tpm.create_primary(hmac_key(), data=b"key of " + value, user_auth=value)
        contexts.append((value, saved_context(device, handle)))
        tpm.send(tpm.flush(handle))
    for value, context in reversed(contexts):
        buffer = command(CONTEXT_LOAD, context)
        handle = int.from_bytes(device.execute(buffer).response[10:], "big")
        tpm.call("HMAC", handle, uses=[value], buffer=b"data", hashAlg=SHA256)
        tpm.send(tpm.flush(handle))


def saved_context(device, handle):
    return device.execute(command(CONTEXT_SAVE, number(handle, 4))).response[10:]


class Sequences(unittest.TestCase):
    def test_other_handles(self):
        """The other TPM gives sequence objects other handles, which its later commands use."""
        with RecordedModel() as device:
            device.journal.go_on(device.completion.numbers)
            sequences_that_move(device)
        with Moved(model=Model(bytes(256))) as other:
            report = Comparison(other).play(device.journal.text)
        self.assertEqual((report.differences, report.not_comparable), ([], []))
        self.assertEqual(report.commands, 8)

    def test_contexts(self):
        """The other TPM saves and loads the contexts of its own sequence objects."""
        with RecordedModel() as device:
            device.journal.go_on(device.completion.numbers)
            saved_sequences_that_move(device)
        with Moved(model=Model(bytes(256))) as other:
            report = Comparison(other).play(device.journal.text)
        self.assertEqual((report.differences, report.not_comparable), ([], []))
        self.assertEqual(report.commands, 11)


def sequences_that_move(device):
    """Hashes with one sequence, computes an HMAC with another, and flushes a third."""
    tpm = Caller(device)
    tpm.start_up()
    key = tpm.create_primary(hmac_key(), data=b"key")
    kind = number(SHA256, 2)
    for buffer in (
        command(HASH_SEQUENCE_START, sized(b"") + kind),
        on_handle(HMAC_START, key, sized(b"") + kind),
        on_handle(SEQUENCE_UPDATE, HANDLES[0], sized(b"data")),
        on_handle(SEQUENCE_COMPLETE, HANDLES[0], sized(b"data") + number(RH_NULL, 4)),
        on_handle(SEQUENCE_UPDATE, HANDLES[1], sized(b"data")),
        command(CC.FlushContext, number(HANDLES[1], 4)),
    ):
        assert not any(device.execute(buffer).response[6:10])


def saved_sequences_that_move(device):
    """Saves, flushes and loads two sequences in reverse order, and completes them."""
    Caller(device).start_up()
    contexts = []
    for _ in range(2):
        device.execute(command(HASH_SEQUENCE_START, sized(b"") + number(SHA256, 2)))
    for handle in HANDLES[:2]:
        contexts.append(saved_context(device, handle))
        device.execute(command(CC.FlushContext, number(handle, 4)))
    for context in reversed(contexts):
        device.execute(command(CONTEXT_LOAD, context))
    for handle in HANDLES[:2]:
        parameters = sized(b"data") + number(RH_NULL, 4)
        response = device.execute(on_handle(SEQUENCE_COMPLETE, handle, parameters)).response
        assert not any(response[6:10])


class Others(unittest.TestCase):
    @unittest.skipUnless(shutil.which("swtpm"), "there is no swtpm")
    def test_swtpm(self):
        """Each difference between swtpm and this device has a known cause."""
        with StartedSwtpm(seconds=PATIENCE) as other:
            report = Comparison(other).play(script("passwords"))
        own = [it for it in report.differences if it.follows is None]
        self.assertTrue(own)
        self.assertNotIn(None, [cause_of(it) for it in own])

    @unittest.skipUnless(shutil.which("swtpm"), "there is no swtpm")
    def test_contexts_of_swtpm(self):
        """swtpm loads its own contexts when this device loads the matching ones. Only the tickets
        of the keys differ.
        """
        with RecordedModel() as device:
            device.journal.go_on(device.completion.numbers)
            contexts_that_move(device)
        with StartedSwtpm(seconds=PATIENCE) as other:
            report = Comparison(other).play(device.journal.text)
        found = [(it.command, it.what) for it in report.differences]
        self.assertEqual(found, [("CreatePrimary", "creationTicket")] * 2)
        self.assertEqual(report.not_comparable, [])

    def test_wrong_words(self):
        for words in ("", "tpm", "swtpm:port=1", "mssim:path=x", "device:", "mssim:host=a,port=b"):
            with self.assertRaisesRegex(ValueError, f"^'{words}' names no TPM; give device:PATH, "):
                other_tpm(words)
