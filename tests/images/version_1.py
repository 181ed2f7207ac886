"""Images of version 1, whose bytes are stored in tests/images/version_1. NAME.hex contains an image
that a program of that version saved, and NAME.tpm the script of its device. Neither file will ever
be changed.
"""

import pathlib

from tpmsim.model import image
from tests.common.expected import device_behind

FOLDER = pathlib.Path(__file__).with_name("version_1")
NAMES = "new", "saved", "changed", "locked", "full"
BYTES_OF_LINE = 32


def hex_file(name):
    return FOLDER / f"{name}.hex"


def script(name):
    return (FOLDER / f"{name}.tpm").read_text("ascii")


def kept(name):
    return bytes.fromhex(hex_file(name).read_text("ascii"))


def spelled(text):
    """Returns the text of NAME.hex for an image."""
    pieces = (text[at : at + BYTES_OF_LINE] for at in range(0, len(text), BYTES_OF_LINE))
    return "".join(f"{it.hex()}\n" for it in pieces)


def device_of(name):
    """Returns the device after a script. Each comment of the script names an outcome."""
    return device_behind(script(name))


def image_of(device):
    """Returns a device's image in format version 1."""
    return image.image(device, image.VERSION_1)
