"""Tests snapshots, which are state texts. The library and the model write the same text for the
same device.
"""

import errno
import functools
import pathlib
import pickle
import random
import subprocess
import sys
import tempfile
import unittest
from unittest import mock

import completed_scripts
from states import without_start
from tpmsim.caller import area, BY_VALUE, Caller, Refused
from tpmsim.device import BadState, ChildDevice, Device, DeviceEnded, KeptDevice, library
from tpmsim.device import LibraryDevice, ModelDevice, Snapshot, Transport, Unsupported
from tpmsim.explain.of_device import log_of, why_refused
from tpmsim.explain.play import Play
from tpmsim.model import image, state_text
from tpmsim.model.completion import Completion
from tpmsim.standard import AES, RH_OWNER
from twenty import TwentyTests

SEED, MANUFACTURED = b"seed", bytes(range(256))
SEEDS, COMMANDS = 6, 200
NEEDS_LIBRARY = unittest.skipUnless(library.is_there(), "there is no libtpmsim.so.0")
OF_ANOTHER_PROCESS = """
import pathlib, sys
from tpmsim.caller import Caller
from tpmsim.device import Device
with Device() as device:
    device.restore(pathlib.Path(sys.argv[1]).read_bytes())
    print(Caller(device).call("ReadClock")["currentTime"].clock)
"""


def in_library():
    return LibraryDevice(seed=SEED, manufactured=MANUFACTURED)


class Pair(Transport):
    """A device of the library and a device of the model. Both receive the same events, and must
    return the same responses. After each command, each device continues from the state text of
    the other device.
    """

    def __init__(self):
        super().__init__()
        self.both = in_library(), ModelDevice(seed=SEED)

    def alike(self, act):
        first, second = map(act, self.both)
        assert first == second, (first, second)
        return first

    def execute(self, buffer):
        answered = self.alike(lambda it: it.execute(buffer))
        self.alike(lambda it: it.save())
        taken = [it.snapshot() for it in self.both]
        assert taken[0] == taken[1], [it.hex() for it in taken]
        for device, snapshot in zip(self.both, reversed(taken)):
            device.restore(snapshot)
        return answered

    def wait(self, milliseconds):
        self.alike(lambda it: it.wait(milliseconds))

    @property
    def locality(self):
        return self.alike(lambda it: it.locality)

    @locality.setter
    def locality(self, number):
        for device in self.both:
            device.locality = number

    def power_cycle(self):
        self.alike(lambda it: it.power_cycle())

    def snapshot(self):
        return self.alike(lambda it: it.snapshot())

    def restore(self, snapshot):
        self.alike(lambda it: it.restore(snapshot))

    def close(self):
        self.alike(lambda it: it.close())


@NEEDS_LIBRARY
class OverPair(TwentyTests, unittest.TestCase):
    device = Pair


class Snapshots:
    """The tests for each device that has a state text."""

    def device(self):
        raise NotImplementedError

    def setUp(self):
        self.tpm = Caller(self.enterContext(self.device()))
        self.tpm.start_up()

    def assert_same(self, found, wanted):
        """Checks that two state texts are the same."""
        self.assertEqual(found, wanted)

    def worked(self):
        """Returns a snapshot that contains a session and an object."""
        self.tpm.create_primary(completed_scripts.storage_key())
        self.tpm.session(RH_OWNER, cipher=AES)
        return self.tpm.device.snapshot()

    def test_bytes(self):
        """The bytes of a snapshot suffice to restore it. Equal devices have equal snapshots."""
        taken, device = self.worked(), self.tpm.device
        self.assertIsInstance(taken, bytes)
        self.assertEqual(state_text.state_text(*state_text.open_state(taken)), taken)
        for it in bytes(taken), pickle.loads(pickle.dumps(taken)):
            self.tpm.call("PCR_Reset", 16)
            self.assertNotEqual(device.snapshot(), taken)
            device.restore(it)
            self.assert_same(device.snapshot(), taken)

    def test_other_devices(self):
        """Any other device can continue from a snapshot."""
        taken = self.worked()
        with ModelDevice(seed=SEED) as other:
            other.restore(bytes(taken))
            tpm = Caller(other)
            tpm.call("PCR_Reset", 16)
            self.tpm.device.restore(other.snapshot())
            self.assert_same(self.tpm.device.snapshot(), other.snapshot())

    def test_no_state_text(self):
        """Bytes that are not a state text cannot be restored, and change nothing."""
        taken, device = self.worked(), self.tpm.device
        before = list(device.events)
        bent = bytes([taken[300] ^ 1])
        for text, fault in {
            b"": "Short",
            device_image(): "Magic",
            b"TPMS\0\4" + taken[6:]: "Version",
            image.digested(1, taken[10:-32], state_text.MAGIC): "Earlier",
            taken[:-1]: "Length",
            taken + b"\0": "Length",
            taken[:300] + bent + taken[301:]: "Digest",
            state_text.framed(taken[10:-33]): "Body",
        }.items():
            self.assertRaisesRegex(BadState, f"^{fault}$", device.restore, text)
            self.assertEqual((device.snapshot(), device.events), (taken, before))
        for it in 5, "TPMS", None, (taken,):
            words = "^a snapshot is bytes, those of a state text$"
            self.assertRaisesRegex(TypeError, words, device.restore, it)


def device_image():
    with ModelDevice() as device:
        return device.save() + bytes(60)


class Told(Snapshots):
    """Tests of devices whose locality, time and random bytes are set by the caller."""

    def test_what_was_told(self):
        """A snapshot restores the settings of the device. Its bytes alone contain no settings, and
        begin a new trace.
        """
        device = self.tpm.device
        device.locality = 3
        device.wait(70_000)
        trace, taken = device.trace, device.snapshot()
        device.execute(b"")
        device.restore(taken)
        self.assertEqual((device.trace, device.locality), (trace, 3))
        device.wait(7)
        self.tpm.call("GetRandom", bytesRequested=1)
        self.assertEqual(device.events[-1].elapsed, 70_007)
        device.restore(bytes(taken))
        self.assertEqual((device.trace, device.locality), ([f"# state {taken.hex()}"], 0))

    def test_after_power(self):
        """After a power cycle, a device can be restored from an earlier snapshot."""
        taken, device = self.worked(), self.tpm.device
        device.power_cycle()
        off = device.snapshot()
        with self.device() as other:
            for it in off, taken, off:
                other.restore(it)
                self.assert_same(other.snapshot(), it)
            self.tpm.device = other
            self.tpm.start_up()


class OverModel(Told, unittest.TestCase):
    device = functools.partial(ModelDevice, seed=SEED)


class InFolder:
    """Tests of devices in a folder. When a device is restored, its completing layer starts again."""

    def assert_same(self, found, wanted):
        self.assertNotEqual(found, wanted)
        self.assertEqual(without_start(found), without_start(wanted))


class OverChild(InFolder, Told, unittest.TestCase):
    device = functools.partial(ChildDevice, seed=SEED)

    def test_at_once(self):
        """A device can be restored before its process is ready."""
        with self.device() as first, self.device() as other:
            taken = first.snapshot()
            other.restore(taken)
            self.assert_same(other.snapshot(), taken)

    def test_image(self):
        folder = self.enterContext(tempfile.TemporaryDirectory())
        device = self.enterContext(ChildDevice(image=f"{folder}/image"))
        words = "a child's device with an image has no snapshots"
        self.assertRaisesRegex(Unsupported, words, device.snapshot)
        self.assertRaisesRegex(Unsupported, words, device.restore, self.tpm.device.snapshot())
        device.execute(b"")


@NEEDS_LIBRARY
class InProcess(Told, unittest.TestCase):
    device = staticmethod(in_library)

    def test_image(self):
        """After a restoration, the file contains the image of the restored device."""
        file = pathlib.Path(self.enterContext(tempfile.TemporaryDirectory()), "image")
        taken = self.worked()
        with LibraryDevice(image=file) as device:
            device.restore(taken)
            kept = file.read_bytes()
            self.assertEqual((kept, device.snapshot()), (device.save(), taken))
        with LibraryDevice(image=file) as device:
            self.assertEqual(device.save(), kept)

    def test_closed(self):
        """A closed device cannot be restored."""
        device = self.enterContext(in_library())
        taken = device.snapshot()
        device.close()
        for act in (
            *(lambda: device.restore(taken), device.snapshot, device.power_cycle),
            lambda: device.execute(b""),
        ):
            self.assertRaisesRegex(ValueError, "^the device is closed$", act)

    def test_an_image_that_is_not_written(self):
        """If the image cannot be written, the command has been executed but its response is lost.
        No other command is executed until `restore`.
        """
        file = pathlib.Path(self.enterContext(tempfile.TemporaryDirectory()), "image")
        tpm = Caller(self.enterContext(LibraryDevice(image=file)))
        tpm.start_up()
        taken, before = tpm.device.snapshot(), tpm.device.trace
        with mock.patch("os.fsync", side_effect=OSError(errno.ENOSPC, "full")):
            self.assertRaisesRegex(DeviceEnded, "the image is not written", tpm.define, area())
        for act in tpm.device.snapshot, tpm.device.power_cycle, tpm.start_up:
            self.assertRaisesRegex(DeviceEnded, "`restore` mends it", act)
        tpm.device.restore(taken)
        self.assertEqual((tpm.device.snapshot(), tpm.device.trace), (taken, before))
        tpm.define(area())

    def test_no_memory(self):
        """If memory runs out before the restored device exists, the old device is unchanged. If an
        allocation fails later, the old device has been replaced.
        """
        taken, device = self.worked(), self.tpm.device
        with mock.patch.object(device, "library") as calls:
            calls.tpmsim_restore.return_value = library.NO_MEMORY
            self.assertRaises(MemoryError, device.restore, taken)
        self.assertEqual(device.snapshot(), taken)
        with mock.patch.object(device, "keep", side_effect=MemoryError):
            self.assertRaises(MemoryError, device.restore, taken)
        self.assertRaisesRegex(DeviceEnded, "`restore` mends it", device.snapshot)
        device.restore(taken)
        self.assertEqual(device.snapshot(), taken)


@NEEDS_LIBRARY
class OverKeptState(InFolder, Snapshots, unittest.TestCase):
    def device(self):
        self.folder = self.enterContext(tempfile.TemporaryDirectory())
        return KeptDevice(self.folder, forces=False)

    def test_other_holders(self):
        """Each holder continues from the restored snapshot, and so does a process that opens the
        folder.
        """
        taken = self.worked()
        with KeptDevice(self.folder) as other:
            self.tpm.call("PCR_Reset", 16)
            self.assertNotEqual(other.snapshot(), taken)
            self.tpm.device.restore(taken)
            self.assert_same(other.snapshot(), taken)
            Caller(other).call("PCR_Reset", 16)
            self.assertEqual(other.snapshot(), self.tpm.device.snapshot())
        with KeptDevice(self.folder) as other:
            self.assertEqual(other.snapshot(), self.tpm.device.snapshot())
            other.restore(taken)
            other.power_cycle()
            self.assertNotEqual(other.snapshot(), taken)


class CompletedDevice(LibraryDevice):
    """A device with the completing layer. The caller passes the time and the random bytes."""

    completes = True

    def executed(self, buffer, event):
        calls = self.library
        call = calls.tpmsim_complete if self.completes else calls.tpmsim_execute
        call(self.handle, buffer, len(buffer), *event)


@NEEDS_LIBRARY
class Completed(unittest.TestCase):
    """Tests random commands with the completing layer, whose state is part of the state text."""

    def test_commands_at_random(self):
        for seed in range(SEEDS):
            with self.subTest(seed=seed), tempfile.TemporaryDirectory() as folder:
                with KeptDevice(folder, forces=False, completes=True) as device:
                    self.play(device, pathlib.Path(folder, "journal"), random.Random(seed))

    def play(self, device, journal, chance):
        completed_scripts.play(device, chance, COMMANDS)
        taken, play = device.snapshot(), Play()
        for _ in play.events(journal.read_bytes()):
            pass
        self.assertEqual(state_text.state_text(play.model, play.layer.numbers), taken)
        model, numbers = state_text.open_state(taken)
        self.assertEqual(Completion.of(numbers).numbers, play.layer.numbers)
        self.assertEqual(state_text.state_text(model, numbers), taken)

    def test_going_on(self):
        """A restored device returns the same responses as the original, and has the same state
        afterwards.
        """
        for seed in range(SEEDS):
            with self.subTest(seed=seed), CompletedDevice(seed=SEED) as device:
                completed_scripts.play(device, random.Random(seed), COMMANDS)
                taken, drawings = device.snapshot(), device.drawings
                with CompletedDevice(seed=SEED) as other:
                    other.restore(bytes(taken))
                    other.drawings = drawings
                    self.assertEqual(other.snapshot(), taken)
                    first, second = (self.executed(it, seed) for it in (device, other))
                    self.assertEqual(first, second)
                    self.assertEqual(device.snapshot(), other.snapshot())

    @staticmethod
    def executed(device, seed):
        """Returns a device's responses to the random commands that follow."""
        first = len(device.events)
        completed_scripts.play(device, random.Random(seed), COMMANDS)
        return [it.response for it in device.events[first:] if not isinstance(it, str)]


class Explained(unittest.TestCase):
    """A log that begins with a state text is explained like any other log."""

    def test_wrong_password(self):
        """The state text contains the index that was defined earlier, and its authValue."""
        with ModelDevice() as device:
            tpm = Caller(device)
            tpm.start_up()
            index = tpm.define(area(attributes=BY_VALUE), auth=b"right")
            device.restore(bytes(device.snapshot()))
            with self.assertRaises(Refused):
                tpm.send(tpm.writing(index, b"8 bytes.", b"wrong"))
            log = log_of(device)
        self.assertTrue(log.startswith(b"# state 54504d53"))
        self.assertIn('authValue wanted  7269676874 "right"', why_refused(log))


class Stored(unittest.TestCase):
    def test_another_process(self):
        folder = self.enterContext(tempfile.TemporaryDirectory())
        file = pathlib.Path(folder, "state")
        with Device() as device:
            Caller(device).start_up()
            device.wait(1234)
            Caller(device).call("ReadClock")
            file.write_bytes(device.snapshot())
        words = sys.executable, "-c", OF_ANOTHER_PROCESS, file
        done = subprocess.run(words, capture_output=True, text=True, check=True, timeout=600)
        self.assertEqual(done.stdout, "1234\n")

    @NEEDS_LIBRARY
    def test_between_kinds(self):
        """A device that is restored from a snapshot of a device in a folder does not get that
        device's events, and vice versa.
        """
        folder = self.enterContext(tempfile.TemporaryDirectory())
        with KeptDevice(folder) as kept, Device() as device:
            Caller(kept).start_up()
            taken = kept.snapshot()
            device.restore(taken)
            self.assertEqual(device.trace, [f"# state {taken.hex()}"])
            Caller(device).call("PCR_Reset", 16)
            kept.restore(device.snapshot())
            self.assertEqual(kept.trace, [])
            kept.restore(taken)
            self.assertEqual(kept.trace[0], "do Startup 0")

    def test_of(self):
        taken = Snapshot.of(b"TPMS")
        self.assertIs(Snapshot.of(taken), taken)
        self.assertEqual((taken.begun, taken.events, taken.locality), (b"TPMS", (), 0))


if __name__ == "__main__":
    unittest.main()
