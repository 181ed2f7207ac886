"""Tests the reason why a device refused a command. The reason follows from the commands and the
responses, whether the device is in this process or elsewhere.
"""

import pathlib
import shutil
import tempfile
import unittest

from programs import NEEDS_SIMULATOR, PATIENCE, served, simulator
from tpmsim.caller import area, BY_VALUE, Caller, Refused
from tpmsim.device import ChildDevice, KeptDevice, library, LibraryDevice, ModelDevice, ServedDevice
from tpmsim.device import SimulatorDevice, StartedSwtpm
from tpmsim.explain.of_device import log_of, why_refused
from tpmsim.standard import AES


def use(device):
    """Authorizes with an index's value in a session, and then sends a wrong password for the index."""
    tpm = Caller(device)
    tpm.start_up()
    index = tpm.define(area(attributes=BY_VALUE), auth=b"right")
    session = tpm.session(index, cipher=AES)
    tpm.send(tpm.writing(index, b"8 bytes.", session.decrypting))
    tpm.call("GetRandom", bytesRequested=8)
    tpm.send(tpm.writing(index, b"8 bytes.", session))
    try:
        tpm.send(tpm.writing(index, b"8 bytes.", b"wrong"))
    except Refused:
        return index
    raise AssertionError("a wrong value is taken")


class Reasons(unittest.TestCase):
    def setUp(self):
        self.folder = pathlib.Path(self.enterContext(tempfile.TemporaryDirectory()))

    def assert_explained(self, device):
        with device:
            index = use(device)
            why = why_refused(log_of(device))
        self.assertRegex(why, r"^line \d+: NV_Write is refused: AUTH_FAIL/s1 \(98e\), by check G9")
        self.assertIn(f"The password of the entry is not the authValue of {index:08x}.", why)
        self.assertIn('password given    77726f6e67 "wrong"', why)

    @unittest.skipUnless(library.is_there(), "there is no library")
    def test_in_process(self):
        self.assert_explained(LibraryDevice())
        self.assert_explained(LibraryDevice(image=self.folder / "image"))

    @unittest.skipUnless(library.is_there(), "there is no library")
    def test_kept(self):
        """A refusal of a device in a folder is also explained after a power cycle, and with the
        completing layer.
        """
        self.assert_explained(KeptDevice(self.folder / "kept"))
        with KeptDevice(self.folder / "other", completes=True) as device:
            Caller(device).start_up()
            device.power_cycle()
            use(device)
            self.assertIn("The password of the entry", why_refused(log_of(device)))

    def test_in_a_child(self):
        self.assert_explained(ChildDevice())

    def test_in_python(self):
        self.assert_explained(ModelDevice())

    def test_of_an_image(self):
        """The explanation knows the contents of the image from which the device starts."""
        with ModelDevice() as device:
            index, image = use(device), device.save()
        (self.folder / "image").write_bytes(image)
        kinds = (
            ModelDevice.open,
            ChildDevice.open,
            *([LibraryDevice.open] if library.is_there() else []),
        )
        for begun in (*(kind(image) for kind in kinds), ChildDevice(image=self.folder / "image")):
            with begun as device:
                tpm = Caller(device)
                tpm.start_up()
                self.assertRaises(Refused, tpm.call, "NV_Read", index, index, size=8, offset=0)
                why = why_refused(log_of(device))
            self.assertIn(f"The password of the entry is not the authValue of {index:08x}", why)

    def served(self):
        """Returns a device on a socket. Its random bytes are unknown."""
        return ServedDevice(self.enterContext(served(self.folder)), PATIENCE)

    def test_on_a_socket(self):
        self.assert_explained(self.served())

    @NEEDS_SIMULATOR
    def test_at_a_simulator(self):
        image = str(pathlib.Path(self.folder) / "image")
        address = self.enterContext(simulator("--image", image))
        self.assert_explained(SimulatorDevice(*address, PATIENCE))

    @unittest.skipUnless(shutil.which("swtpm"), "there is no swtpm")
    def test_of_another_maker(self):
        """Refusals by another vendor's TPM are explained as long as its responses match this
        device's.
        """
        with StartedSwtpm(seconds=PATIENCE) as device:
            tpm = Caller(device)
            tpm.start_up()
            index = tpm.define(area(attributes=BY_VALUE), auth=b"right")
            tpm.send(tpm.writing(index, b"8 bytes.", tpm.session(cipher=AES).decrypting))
            wrong = tpm.writing(index, b"8 bytes.", b"wrong")
            self.assertRaises(Refused, tpm.send, wrong)
            self.assertIn("The password of the entry is not", why_refused(log_of(device)))

    def test_what_was_there_before(self):
        """If a device had an index before its first recorded event, no refusal is explained
        wrongly.
        """
        with ChildDevice(image=self.folder / "image") as device:
            index = use(device)
        with self.served() as device:
            tpm = Caller(device)
            tpm.start_up()
            tpm.call("NV_ReadPublic", index)
            words = "is not answered as by a device that was told this log alone"
            self.assertIn(words, why_refused(log_of(device)))


if __name__ == "__main__":
    unittest.main()
