"""The files that the repository ships for this machine, if the package is in a clone of it."""

import pathlib
import platform

DIST = pathlib.Path(__file__).resolve().parents[4] / "dist"


def shipped(name: str) -> pathlib.Path:
    """Returns the path of a file in dist/, which may be missing."""
    folder = DIST / "aarch64" if platform.machine() == "aarch64" else DIST
    return folder / name
