"""Plays scripts with `tpmsim run --image`, line by line:

    python3 kept_scripts.py PROGRAM

The Python device plays the same lines. After each line, the image in the file must be that of the
Python device.
"""

import pathlib
import sys

from tpmsim.model.image import open_image
from tpmsim.model.machine import Model
from tpmsim.model.player import Player
from tests.common import places
from tests.common.kept_image import BESIDE, IMAGE, KeptRun
from tests.common.shims import end, fail, FILE

PROGRAM = sys.argv[1]
RUN = [PROGRAM, "run", "--trace", "--image", IMAGE]

# Scripts that together change every part of the kept state.
SCRIPTS = [
    *places.scripts("examples"),
    *places.named(
        *"clear evict_control lockout_commands nv_counters nv_large objects_power_cycle".split(),
        *"power_cycle saved_state startup_state what_stays".split(),
    ),
]

EXTEND = b"do PCR_Extend 0000000a pw:- sha1:" + b"00" * 20
DEFINE = b"do NV_DefineSpace OWNER pw:- - 01000002000b0002001200000008"
INCREMENT = b"do NV_Increment OWNER 01000002 pw:-"


class Run(KeptRun):
    """A run of the program, and the Python device that plays the same lines."""

    compared = staticmethod(bytes)

    def __init__(self, *words, new=None):
        super().__init__([*RUN, *words, "-"], new or Model())
        self.player = Player(self.device)

    def write(self, *lines):
        self.process.stdin.write(b"".join(line + b"\n" for line in lines))
        self.process.stdin.flush()

    def read(self, line):
        wanted = self.player.play(line)
        given = [self.process.stdout.readline().decode().rstrip("\n") for _ in wanted]
        if given != wanted:
            fail(f"{line}: {given}, and not {wanted}")
        return wanted

    def end(self, stays=False):
        """Ends the script. The image is then removed, unless `stays` is true."""
        end(self.process)
        self.check_image("the end")
        if not stays:
            IMAGE.unlink()

    def fail_to_save(self, *lines):
        """Sends lines whose changes cannot be saved, and checks how the program ends."""
        self.write(*lines)
        end(self.process, FILE)


def watch(script):
    """Plays a script line by line, and then again on the image that the first run left."""
    for again in ("", ", on its image"):
        run = Run()
        saves = run.tell_and_look(*script.read_bytes().splitlines())
        run.end(stays=not again)
        print(f"{script.stem}{again}: {len(saves)} events, {sum(saves)} saves")


def check_powers():
    """A power cycle saves the clock, even if no command before it caused a save."""
    run = Run()
    run.tell_and_look(b"do Startup 0", b"wait 5000", b"do ReadClock", b"power", b"do ReadClock")
    clock = open_image(IMAGE.read_bytes()).clock
    if clock != 5000:
        fail(f"the clock of the image is {clock}")
    run.end()
    print("a power cycle saves the clock")


def check_kills():
    """Kills the program after the first response, then in a new run after the second, and so on.
    Each time, the image must contain all changes.
    """
    lines = [b"do Startup 0", DEFINE, INCREMENT, INCREMENT, EXTEND, b"do Shutdown 1", INCREMENT]
    for count in range(1, len(lines) + 1):
        run = Run()
        run.tell_and_look(*lines[:count])
        run.kill()
        run.check_image(f"killed after {lines[count - 1]}")
        again = Run()
        again.tell_and_look(b"do Startup 0", b"do NV_Read OWNER 01000002 pw:- 8 0")
        again.end()
    print(f"killed behind each of {len(lines)} responses: what was told is in the image")


def check_entropy():
    """A new device is made from the first random bytes. Opening an existing device needs none."""
    random = bytes(range(255, -1, -1))
    for text in (random + b"left over", b""):
        pathlib.Path("entropy").write_bytes(text)
        run = Run("--entropy", "entropy", new=Model(random))
        run.tell_and_look(b"do Startup 0")
        run.end(stays=bool(text))
    print("a new device is made of the first 256 random bytes")


def check_unsaved():
    """A response is sent only after its change is saved. If the save fails, no response is sent."""
    BESIDE.mkdir()
    (BESIDE / "file").touch()
    Run().fail_to_save(b"do GetRandom 4")
    if IMAGE.exists():
        fail("there is an image")
    (BESIDE / "file").unlink()
    BESIDE.rmdir()
    run = Run()
    run.tell_and_look(b"do Startup 0", DEFINE)
    kept = IMAGE.read_bytes()
    BESIDE.mkdir()
    run.tell(b"do GetRandom 4")
    run.fail_to_save(INCREMENT, b"do GetRandom 4")
    if IMAGE.read_bytes() != kept:
        fail("the image is another one")
    BESIDE.rmdir()
    IMAGE.unlink()
    print("what is not saved is not told")


def check_pieces():
    """If many commands arrive at once, each response is sent only after its changes are saved."""
    run = Run()
    lines = [b"do Startup 0", DEFINE, *[INCREMENT] * 400, b"do NV_Read OWNER 01000002 pw:- 8 0"]
    run.write(*lines)
    for line in lines:
        run.read(line)
    run.check_image("many commands at once")
    run.end()
    print("many commands at once are saved")


for path in SCRIPTS:
    watch(path)
check_powers()
check_kills()
check_entropy()
check_unsaved()
check_pieces()
