"""Writes tests/swtpm/journal_state: the states of a running device, and the commands that it must
accept afterwards. The states come from an older library, whose volatile state is its journal. The
same library made the states in journal_of_objects, whose journal has a TPM2_ContextSave of an
object:

    tools/python.sh tests/swtpm/make_journal_state.py CALLER LIBRARY SHIM

CALLER is built from caller.c, LIBRARY is that older libtpms.so.0, and SHIM is built from
common/clock.c. The power comes on when the clock is at 1,000 seconds. The last command comes at
1,009 seconds. The files must never be written again.
"""

import pathlib
import sys
import tempfile

from tests.swtpm.called import Called
from tests.swtpm.left_device import LeftDevice

FOLDER = pathlib.Path(__file__).with_name("journal_state")
BYTES_OF_LINE = 48


def wrapped(text: bytes) -> str:
    pieces = (text[at : at + BYTES_OF_LINE] for at in range(0, len(text), BYTES_OF_LINE))
    return "".join(f"{it.hex()}\n" for it in pieces)


caller, library, shim = (str(pathlib.Path(it).resolve()) for it in sys.argv[1:])
FOLDER.mkdir()
with tempfile.TemporaryDirectory() as room:
    clock = pathlib.Path(room, "clock")
    clock.write_text("1000 0\n", "ascii")
    told = {"LD_PRELOAD": shim, "CLOCK": str(clock)}
    device = Called(caller, library, room, TPMSIM_COMPLETE="1", **told)
    device.on()
    left = LeftDevice(device, is_older=True)
    clock.write_text("1009 0\n", "ascii")
    left.write(b"to begin")
    buffers = left.buffers()
    device.done("save volatile", "VolatileAll_Store")
    device.done("get permanent permanent", "GetState")
    device.end()
    volatile, permanent = (pathlib.Path(room, it).read_bytes() for it in ("volatile", "permanent"))
(FOLDER / "volatile").write_bytes(volatile)
(FOLDER / "permanent.hex").write_text(wrapped(permanent), "ascii")
(FOLDER / "commands").write_text("".join(f"{it.hex()}\n" for it in buffers), "ascii")
