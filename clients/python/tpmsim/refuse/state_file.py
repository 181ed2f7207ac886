"""Writes a state text, which contains all secrets of a device, to a file for its owner alone."""

import os
import pathlib

OWNER_ALONE = 0o600


def write_state(path: str, text: bytes) -> None:
    """Writes a state text to a file of mode 600; raises OSError if it cannot be written."""
    file = pathlib.Path(path)
    file.touch(OWNER_ALONE)
    os.chmod(file, OWNER_ALONE)
    file.write_bytes(text)
