"""Opens damaged images with the library:

    tools/python.sh library_images.py LIBRARY

LIBRARY is the shared library. The images and the output are the same as in
common/damaged_images.py, which opens the images with the program.
"""

import os
import sys

from tpmsim.device.base import BadImage
from tpmsim.device.library import LibraryDevice
from tpmsim.standard import Profile
from tests.common.damaged_images import main, RANDOM


class Library:
    """The library, which opens images and saves devices like a program that serves clients. All
    images are opened in the same handle.
    """

    profiles = tuple(Profile)

    def __init__(self) -> None:
        self.device = LibraryDevice(manufactured=RANDOM)

    def fault_of(self, text: bytes) -> str | None:
        """Returns the fault of an image. If the image has no fault, the handle then contains
        the image's device.
        """
        try:
            self.device.begin(text)
        except BadImage as fault:
            return str(fault)
        return None

    def saved(self, commands: bytes) -> bytes:
        """Returns the image of a new device after these commands."""
        self.device.manufacture(RANDOM)
        while commands:
            size = int.from_bytes(commands[2:6], "big")
            self.device.answer(commands[:size], 0, 0, RANDOM)
            commands = commands[size:]
        return self.device.save()

    def saved_again(self, text: bytes) -> bytes:
        """Opens an image, and returns the image that the device saves."""
        assert self.fault_of(text) is None
        return self.device.save()


os.environ["TPMSIM_LIBRARY"] = sys.argv[1]
main(Library(), [])
