"""Runs of the program that save a device in an image, compared with the Python device."""

import pathlib
from typing import Any, Callable, Iterable

from tests.common.shims import begun, Ending, end, fail
from tests.common.streams import image_told, without_clock
from tpmsim.model.image import image, open_image
from tpmsim.model.machine import Model

IMAGE, BESIDE = pathlib.Path("image"), pathlib.Path("image.new")
KILLED = Ending(-9)


def identity() -> tuple[int, int] | None:
    """Returns the image's inode and modification time, which change with each save; None if there
    is no image.
    """
    try:
        told = IMAGE.stat()
    except FileNotFoundError:
        return None
    return told.st_ino, told.st_mtime_ns


class KeptRun:
    """A run of the program, and the Python device that executes the same commands. The device is
    `new`, unless there is an image. `compared` maps an image to the part that is compared.
    """

    compared: Callable[[bytes], object] = staticmethod(image_told)

    def __init__(self, words: Iterable[object], new: Model) -> None:
        self.device, self.saved = new, None
        if IMAGE.exists():
            self.device = open_image(IMAGE.read_bytes())
            self.saved = without_clock(self.device)
        self.process = begun(words)

    def write(self, *lines: Any) -> None:
        """Sends lines to the program."""
        raise NotImplementedError

    def read(self, line: Any) -> object:
        """Checks the program's output for a line. Returns the output, if there is any."""
        raise NotImplementedError

    def tell(self, *lines: Any) -> None:
        """Sends lines one by one, and checks the output for each."""
        for line in lines:
            self.write(line)
            self.read(line)

    def tell_and_look(self, *lines: Any) -> list[bool]:
        """Like `tell`, but also checks the image after each output. If the device has changed, or
        the power was cycled, the file must contain the device's image. Otherwise the file must not
        have been written. Returns, for each output, whether the image was saved.
        """
        saves = []
        for line in lines:
            old = identity()
            self.write(line)
            told = self.read(line)
            if told:
                kept = without_clock(self.device)
                saves.append(kept != self.saved or told == ["power"])
                self.saved = kept
                if saves[-1]:
                    self.check_image(line)
                elif identity() != old:
                    fail(f"{line}: the image is written, though nothing changed")
        return saves

    def check_image(self, label: object) -> None:
        """Checks that the file contains the device's image."""
        if not IMAGE.exists():
            fail(f"{label}: there is no image")
        if self.compared(IMAGE.read_bytes()) != self.compared(image(self.device)):
            fail(f"{label}: the image is another device's")
        if BESIDE.exists():
            fail(f"{label}: {BESIDE} is there")

    def kill(self) -> None:
        """Kills the program. The clock in the image may then be older than the device's."""
        self.process.kill()
        end(self.process, KILLED)
        self.compared = image_told
