"""Interrupts calls of devices at the lines of Python that they execute. The devices can be restored
from their state:

    tools/python.sh restored.py LIBRARY

LIBRARY is the shared library. If an interrupted call leaves a device in an unknown state, the
device must report that until `restore` repairs it.
"""

import os
import pathlib
import sys
from unittest import mock

os.environ["TPMSIM_LIBRARY"] = sys.argv[1]

import tpmsim
from tpmsim.caller import area, Caller, Refused
from tpmsim.device import ChildDevice, DeviceEnded, LibraryDevice, ModelDevice
from tpmsim.standard import CC, frames, SHA1, SHA256
from tests.common.interrupts import interrupted

PACKAGE, PCR, LEAST_LINES = str(pathlib.Path(tpmsim.__file__).parent), 16, 15
EXTEND = frames.on_handle(
    CC.PCR_Extend, PCR, frames.digests((SHA1, bytes(20)), (SHA256, bytes(32)))
)


def values(device):
    """Returns the values of the PCR in both banks, as the device reports them."""
    read = Caller(device).send(Caller(device).read_pcr(PCR))["pcrValues"]
    return tuple(read)


def extend(device):
    device.execute(EXTEND)


class Played:
    """A device with a snapshot, and the PCR's values in the snapshot and after each of three later
    commands.
    """

    def __init__(self, made):
        self.device = made()
        Caller(self.device).start_up()
        for _ in range(3):
            extend(self.device)
        self.snapshot, self.known = self.device.snapshot(), [values(self.device)]
        for _ in range(3):
            extend(self.device)
            self.known.append(values(self.device))

    def further(self):
        self.device.restore(self.snapshot)
        extend(self.device)
        extend(self.device)

    def told(self, allowed):
        """Describes what the device reports after an interrupt, and checks that the device can be
        restored.
        """
        try:
            said = "known" if values(self.device) in allowed else "unknown values"
        except Refused:
            said = "unknown values"
        except DeviceEnded:
            said = "halfway"
        self.device.restore(self.snapshot)
        return said if values(self.device) == self.known[0] else f"{said}, and never the snapshot"

    def at_lines(self, act, allowed, step):
        said, count = set(), 1
        while True:
            self.further()
            if not interrupted(lambda: act(self.device), count, PACKAGE):
                break
            said.add(self.told(allowed))
            count += step
        assert count > LEAST_LINES, count
        return " or ".join(sorted(said))


def within_writing():
    """An exception that a signal handler raises while an image is written must not be reported as a
    fault of the image.
    """
    image = pathlib.Path("image")
    with LibraryDevice(image) as device:
        tpm = Caller(device)
        tpm.start_up()
        before, taken = image.read_bytes(), device.snapshot()
        with mock.patch("os.fsync", side_effect=TimeoutError("a test's own")):
            try:
                tpm.define(area())
            except (DeviceEnded, TimeoutError) as fault:
                print(f"library, an image: {type(fault).__name__}: {fault}")
        print("library, the image is as it was:", image.read_bytes() == before)
        try:
            tpm.call("ReadClock")
        except DeviceEnded as fault:
            print(f"library, the next command: {fault}")
        device.restore(taken)
        tpm.define(area())
        print("library, once it is restored a command writes it:", image.read_bytes() != before)


for name, made, step in (
    ("model", ModelDevice, 17),
    ("child", ChildDevice, 1),
    ("library", lambda: LibraryDevice(manufactured=bytes(256)), 1),
):
    played = Played(made)
    known = played.known
    restored = lambda device: device.restore(played.snapshot)
    print(f"{name}, restore: {played.at_lines(restored, (known[0], known[2]), step)}", flush=True)
    if name == "model":
        print(f"{name}, execute: {played.at_lines(extend, known[2:], step)}", flush=True)
    played.device.close()
within_writing()
