"""Runs twenty common uses on each kind of device, and tests that only apply to one kind."""

import contextlib
import doctest
import functools
import io
import os
import pathlib
import shutil
import subprocess
import sys
import tempfile
import unittest
import unittest.mock

import tpmsim.device
from tpmsim.caller import Caller, Refused
from tpmsim.device import BadImage, ChildDevice, Device, DeviceEnded, KeptDevice, LibraryDevice
from tpmsim.device import ModelDevice, ServedDevice, SimulatorDevice, StartedSwtpm, SwtpmDevice
from tpmsim.device import Unsupported
from tpmsim.device.child import program_found
from tpmsim.device.library import but_clock
from tpmsim.device.shipped import shipped
from tpmsim.model.image import image
from tpmsim.model.machine import Model
from tpmsim.model.player import played
from tpmsim.model.protection import Lockout
from tpmsim.standard import RH_OWNER
from programs import NEEDS_SIMULATOR, PATIENCE, served, simulator
from states import without_start
from twenty import TwentyTests

SEED = b"seed"
PACKAGE = pathlib.Path(__file__).resolve().parents[1]
HOSTS_TIME = "time passes as it does on the host"
NO_POWER = "the power cannot be switched here"
NO_SNAPSHOTS = "there are no snapshots"
NEEDS_LIBRARY = unittest.skipUnless(tpmsim.device.library.is_there(), "there is no libtpmsim.so.0")


class Told(TwentyTests):
    """Tests of devices whose locality, time and random bytes are set by the caller."""

    def test_trace_is_a_script(self):
        self.tpm.device.locality = 3
        self.tpm.device.wait(7)
        response = self.tpm.device.execute(self.tpm.random(4).buffer()).response
        self.tpm.device.power_cycle()
        printed, fault = played("\n".join(self.tpm.device.trace).encode())
        self.assertEqual((printed[-2][1], printed[-1][1], fault), (response.hex(), "power", ""))
        self.assertIn("# GetRandom L3 +7 ok 00000000", self.tpm.device.trace)

    def test_seed(self):
        """A device with a seed draws the same random bytes in each run."""
        answers = set()
        for _ in range(2):
            with self.device() as device:
                Caller(device).start_up()
                answers.add(Caller(device).call("GetRandom", bytesRequested=8)["randomBytes"])
        self.assertEqual(len(answers), 1)

    def test_wrong_numbers(self):
        for number in (-1, 5):
            with self.assertRaisesRegex(ValueError, f"^a locality is 0 to 4, and not {number}$"):
                self.tpm.device.locality = number
        self.tpm.device.wait(2**32 - 1)
        words = "^at most 4294967295 milliseconds pass before a command$"
        self.assertRaisesRegex(ValueError, words, self.tpm.device.wait, 1)


class Shipped(unittest.TestCase):
    """The files that a clone of the repository contains for each machine are found by the machine's
    name.
    """

    def test_machines(self):
        for machine, folder in (("x86_64", "dist"), ("aarch64", "aarch64")):
            with unittest.mock.patch("platform.machine", return_value=machine):
                self.assertEqual(shipped("tpmsim").parts[-2:], (folder, "tpmsim"))
                self.assertTrue(os.access(shipped("tpmsim"), os.X_OK))


class OverModel(Told, unittest.TestCase):
    device = functools.partial(ModelDevice, seed=SEED)


class OverChild(Told, unittest.TestCase):
    device = functools.partial(ChildDevice, seed=SEED)


@NEEDS_LIBRARY
class InProcess(Told, unittest.TestCase):
    device = functools.partial(LibraryDevice, seed=SEED, manufactured=bytes(range(256)))

    def test_wrong_bytes_of_a_manufacture(self):
        words = "^a device is manufactured with 256 bytes$"
        self.assertRaisesRegex(ValueError, words, LibraryDevice, manufactured=b"few")


class OverSocket(TwentyTests, unittest.TestCase):
    lacks = {
        "test_power_cycle": NO_POWER,
        "test_lock_until_the_next_start": NO_POWER,
        "test_saved_pcrs": NO_POWER,
        "test_lockout": HOSTS_TIME,
        "test_snapshot": NO_SNAPSHOTS,
        "test_policies": "the locality cannot be set here",
    }

    def device(self):
        folder = self.enterContext(tempfile.TemporaryDirectory())
        return ServedDevice(self.enterContext(served(folder)), PATIENCE)


@NEEDS_LIBRARY
class OverKeptState(TwentyTests, unittest.TestCase):
    lacks = {"test_lockout": HOSTS_TIME}

    def device(self):
        return KeptDevice(self.enterContext(tempfile.TemporaryDirectory()))


@NEEDS_SIMULATOR
class OverSimulator(TwentyTests, unittest.TestCase):
    lacks = {"test_lockout": HOSTS_TIME, "test_snapshot": NO_SNAPSHOTS}

    def device(self):
        return SimulatorDevice(*self.enterContext(simulator()), PATIENCE)


def differs(test):
    """Marks a test that must fail on another TPM, because its responses differ."""
    return unittest.expectedFailure(lambda self: test(self))


@unittest.skipUnless(shutil.which("swtpm"), "there is no swtpm")
class OverSwtpm(TwentyTests, unittest.TestCase):
    """Runs the tests on swtpm. A test that must fail shows that a difference in docs/TOOLS.md
    still exists.
    """

    lacks = {"test_lockout": HOSTS_TIME}
    device = functools.partial(StartedSwtpm, seconds=PATIENCE)

    # swtpm refuses a session that neither authorizes nor encrypts, with ATTRIBUTES/s1.
    test_end_of_a_session = differs(TwentyTests.test_end_of_a_session)
    test_wrong_hmac_of_a_response = differs(TwentyTests.test_wrong_hmac_of_a_response)

    # swtpm's TPM2_PCR_Event returns digests of all banks, even of banks without PCRs.
    test_fields = differs(TwentyTests.test_fields)

    # If a command ends a session's binding, swtpm computes the response as if the session were
    # still bound.
    test_indices = differs(TwentyTests.test_indices)
    test_wrong_hmac = differs(TwentyTests.test_wrong_hmac)


class Devices(unittest.TestCase):
    def setUp(self):
        self.folder = pathlib.Path(self.enterContext(tempfile.TemporaryDirectory()))

    def test_wrong_words(self):
        """A caller refuses wrong words, whatever its device is."""
        tpm = Caller(ModelDevice())
        with self.assertRaisesRegex(TypeError, r"^Quote \(158\): tpmsim has no such command$"):
            tpm.call("Quote")
        with self.assertRaisesRegex(
            TypeError, r"^StirRandom \(146\): only a device of the complete"
        ):
            tpm.call("StirRandom")
        with self.assertRaisesRegex(TypeError, "^Qoute is not a command that the device serves"):
            tpm.call("Qoute")
        self.assertRaises(TypeError, tpm.call, "PCR_Reset")
        for arguments in ({}, {"bytesRequested": 1, "more": 1}):
            self.assertRaises(TypeError, tpm.call, "GetRandom", **arguments)

    def test_image(self):
        path = self.folder / "image"
        with Device(path) as device:
            tpm = Caller(device)
            tpm.start_up()
            tpm.send(tpm.change_auth(RH_OWNER, b"owner", b""))
            kept = path.read_bytes()
            self.assertEqual(device.save(), kept)
            device.wait(5)
            tpm.call("ReadClock")
            self.assertEqual(path.read_bytes(), kept, "the clock alone is saved at the end")
        self.assertNotEqual(path.read_bytes(), kept)
        with Device(path) as tpm.device:
            Caller(tpm.device).start_up()
            self.assertRaises(Refused, tpm.send, tpm.change_auth(RH_OWNER, b"", b""))

    def test_image_but_its_clock(self):
        model = Model()
        model.auth_values[RH_OWNER] = b"owner"
        before = but_clock(image(model))
        model.clock = 2**64 - 1
        self.assertEqual(but_clock(image(model)), before)
        for change in {"reset_count": 2**31}, {"lockout": Lockout(is_closed=True)}:
            vars(model).update(change)
            self.assertNotEqual(but_clock(image(model)), before)
            before = but_clock(image(model))

    def test_image_of_one_device(self):
        """A file belongs to one device at a time. A file that is not an image stays unchanged."""
        path = self.folder / "image"
        with Device(path), self.assertRaises((FileExistsError, DeviceEnded)):
            Device(path).execute(b"")
        path.write_bytes(b"TPMI")
        for device in LibraryDevice, Device:
            self.assertRaises(BadImage, device, path)
        self.assertRaises(BadImage, Device.open, path.read_bytes() + bytes(60))
        self.assertEqual(path.read_bytes(), b"TPMI")

    def test_kept_state(self):
        """Two processes can use a device at once. A journal that is damaged, or a file that is not
        a journal, is reported and stays unchanged.
        """
        with KeptDevice(self.folder) as device, KeptDevice(self.folder) as other:
            tpm = Caller(device)
            tpm.start_up()
            tpm.send(tpm.change_auth(RH_OWNER, b"owner", b""))
            tpm.device = other
            tpm.send(tpm.change_auth(RH_OWNER, b"", b"owner"))
            other.power_cycle()
            self.assertRaisesRegex(Refused, "INITIALIZE", Caller(device).call, "ReadClock")
            self.assertEqual(device.save(), other.save())
            Caller(device).start_up()
            self.assertRaises(Unsupported, device.wait, 1)
        journal = self.folder / "journal"
        whole = journal.read_bytes()
        journal.write_bytes(whole[:-2])
        with KeptDevice(self.folder) as device, self.assertWarnsRegex(RuntimeWarning, "cut off"):
            Caller(device).start_up()
        damaged = whole.replace(b"000144", b"000145")
        for text, words in {damaged: "is damaged", b"-": "no journal"}.items():
            journal.write_bytes(text)
            self.assertRaisesRegex(DeviceEnded, words, KeptDevice, self.folder)
            self.assertEqual(journal.read_bytes(), text)
        journal.write_bytes(damaged)
        with self.assertWarnsRegex(RuntimeWarning, "were dropped"):
            KeptDevice(self.folder, cuts=True).close()
        KeptDevice(self.folder).close()

    def test_another_handle(self):
        """A device that opens its folder again, for example in a forked child, opens the same
        folder, and no other folder at its path.
        """
        with contextlib.chdir(self.folder):
            device = KeptDevice("tpm")
        Caller(device).start_up()
        device.idle.clear()
        self.assertRaisesRegex(Refused, "INITIALIZE", Caller(device).start_up)
        path = self.folder / "tpm"
        path.rename(self.folder / "moved")
        self.assertRaisesRegex(Refused, "INITIALIZE", Caller(device).start_up)
        device.idle.clear()
        self.assertRaisesRegex(DeviceEnded, "cannot be looked at", device.execute, b"")
        KeptDevice(path).close()
        self.assertRaisesRegex(DeviceEnded, "is not there", device.execute, b"")
        device.close()

    def test_written_script(self):
        device = ModelDevice(seed=SEED)
        Caller(device).start_up()
        device.write(self.folder / "script")
        words = [program_found(), "run", self.folder / "script"]
        done = subprocess.run(words, capture_output=True, text=True, check=True, timeout=600)
        self.assertEqual(done.stdout, "80010000000a00000000\n")

    def test_another_kind_of_snapshot(self):
        with ModelDevice() as device:
            text, swtpm = device.snapshot(), SwtpmDevice.__new__(SwtpmDevice)
        words = "^swtpm restores its own snapshots, and no state text$"
        self.assertRaisesRegex(Unsupported, words, swtpm.restore, text)

    def test_ended_child(self):
        words = "^only a device with an image can be saved$"
        with ChildDevice() as device, self.assertRaisesRegex(Unsupported, words):
            device.save()
        device = self.enterContext(ChildDevice())
        words = "status 2: tpmsim: script line"
        self.assertRaisesRegex(DeviceEnded, words, device.execute, bytes(40_000))

    def test_readme(self):
        """The examples of README.md run, and print what README.md says."""
        printed, codes = io.StringIO(), (PACKAGE / "README.md").read_text("utf-8").split("```")
        with contextlib.redirect_stdout(printed):
            for code in (codes[1], codes[3]):
                exec(code.removeprefix("python"), {})
        random, other, refused = printed.getvalue().splitlines()
        self.assertEqual((len(random), len(other), refused), (8, 8, "POLICY_FAIL s1 G9"))

    @NEEDS_LIBRARY
    def test_readme_of_snapshots(self):
        code = (PACKAGE / "README.md").read_text("utf-8").split("```")[5]
        with contextlib.chdir(self.folder):
            exec(code.removeprefix("python"), {})
            text = pathlib.Path("before.state").read_bytes()
            with KeptDevice("tpm") as device:
                self.assertEqual(without_start(device.snapshot()), without_start(text))


class Documented(unittest.TestCase):
    """Each device and each of its methods has an example, and the examples run as shown."""

    def test_examples(self):
        given = {it: getattr(tpmsim.device, it) for it in tpmsim.device.__all__}
        given["Caller"] = Caller
        for name in ("base", "told", "library", "child", "kept", "served", "swtpm"):
            result = doctest.testmod(sys.modules[f"tpmsim.device.{name}"], extraglobs=given)
            self.assertGreater(result.attempted, 0)
            self.assertEqual(result.failed, 0)

    def test_each_call_has_one(self):
        calls = [it for it in vars(tpmsim.device.Transport) if not it.startswith("_")]
        for name in [*calls, "open", "write"]:
            told = [vars(it).get(name) for it in LibraryDevice.__mro__]
            texts = [getattr(it, "__doc__", None) or "" for it in told]
            self.assertTrue(any(">>>" in it for it in texts), name)
