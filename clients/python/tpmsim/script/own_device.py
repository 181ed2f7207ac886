"""The script's own device, in this process, manufactured with the bytes 00 to ff. Before each
command it gets new random bytes, which are the same in each run, unless an `entropy` line sets
others.
"""

from tpmsim.device import Device, LibraryDevice, ModelDevice
from tpmsim.device.library import is_there
from tpmsim.model.machine import MANUFACTURED

SEED = b"tpmsim-script"


class OwnDevice(Device):
    said: bytes | None = None

    def drawn(self) -> bytes:
        """Returns the random bytes of the last `entropy` line, or else bytes made from the seed."""
        return super().drawn() if self.said is None else self.said


class OwnLibraryDevice(OwnDevice, LibraryDevice):
    def __init__(self) -> None:
        super().__init__(seed=SEED, manufactured=MANUFACTURED)


class OwnModelDevice(OwnDevice, ModelDevice):
    def __init__(self) -> None:
        super().__init__(seed=SEED)


def own_device() -> OwnDevice:
    """Returns a fresh device: one of the library if the library is found, and otherwise the model
    in Python.
    """
    return OwnLibraryDevice() if is_there() else OwnModelDevice()
