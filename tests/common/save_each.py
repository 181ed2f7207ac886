"""Tests a device that is served with --save-each:

    python3 save_each.py PROGRAM COUNT

The image is checked after each response, and after each of COUNT kills. Each kill comes
immediately after a response. The Python device executes the same commands, and determines the
expected image.
"""

import os
import sys

from tpmsim.model.machine import Model
from tpmsim.standard import lines
from tests.common.client import answer, connected
from tests.common.kept_image import BESIDE, identity, IMAGE, KeptRun
from tests.common.shims import close, end, fail, FILE, serving
from tests.common.streams import device_told, image_told

RANDOM = bytes(256)
MOST_CONNECTIONS = 4294967295

INCREMENT = "NV_Increment OWNER 01000002 pw:-"
LINES = [
    "Startup 1",
    "Startup 0",
    "NV_DefineSpace OWNER pw:- - 01000002000b0002001200000008",
    INCREMENT,
    "GetRandom 4",
    "PCR_Extend 00000003 pw:- sha1:0000000000000000000000000000000000000001",
    INCREMENT,
    "NV_Read OWNER 01000002 pw:- 8 0",
    "PCR_Read sha1:3",
    "ReadClock",
    "Shutdown 1",
]


def buffer_of(line):
    return lines.assemble(line.encode("ascii"))


class Run(KeptRun):
    """A run of the program, a connection to it, and the Python device."""

    def __init__(self, program, connections=MOST_CONNECTIONS, options=("--save-each",)):
        words = [program, *serving("/dev/zero"), str(connections), *options]
        super().__init__(words, Model(RANDOM))
        self.client = connected("socket")

    def write(self, *lines):
        self.client.sendall(b"".join(map(buffer_of, lines)))

    def read(self, line):
        """Checks a response. That of ReadClock is not compared, because it contains the host's
        time.
        """
        given, wanted = answer(self.client), self.wanted(line)
        if given is None or (given != wanted and line != "ReadClock"):
            fail(f"{line}: {given}, and not {wanted}")
        return given

    def wanted(self, line):
        return self.device.execute(buffer_of(line), 0, RANDOM).response

    def connect(self):
        """Closes the connection, and opens a new one."""
        close(self.client)
        self.client = connected("socket")

    def kill(self):
        super().kill()
        self.client.close()


def check_each(program):
    """Each change is saved before its response is sent. If a command changes nothing, nothing is
    saved. This is tested in two connections.
    """
    run = Run(program, 2)
    first = sum(run.tell_and_look(*LINES))
    old = identity()
    run.connect()
    second = sum(run.tell_and_look(*LINES[2:]))
    if old == identity():
        fail("the clock is not saved behind a connection")
    close(run.client)
    end(run.process)
    run.check_image("the end")
    print(f"{len(LINES)} commands, and {first} saves; then {len(LINES) - 2}, and {second}")


def check_kills(program, count):
    """If the program is killed after a response, the image has the effects of all answered
    commands.
    """
    for number in range(count):
        run, told = Run(program), LINES[: number % len(LINES) + 1]
        run.tell(*told)
        run.kill()
        run.check_image(f"kill {number + 1}, after {told[-1]}")
    print(f"{count} kills straight behind a response: all that was answered is in the image")


def check_pieces(program):
    """If many commands arrive at once, the image has the effects of the answered commands, even
    while later commands wait.
    """
    run = Run(program)
    told = ["Startup 0", *[INCREMENT] * 100]
    run.write(*told)
    for line in told[:-20]:
        run.read(line)
    run.kill()
    given, allowed = image_told(IMAGE.read_bytes()), [device_told(run.device)]
    for line in told[-20:]:
        run.wanted(line)
        allowed.append(device_told(run.device))
    if given not in allowed:
        fail("the image has not all that was answered of many commands at once")
    print("many commands at once: the same")


def check_unsaved(program):
    """If a change cannot be saved, its command is not answered, and the program ends. A command
    that changes nothing is answered.
    """
    run = Run(program)
    run.tell(*LINES[:4])
    BESIDE.mkdir()
    kept, old = IMAGE.read_bytes(), identity()
    run.tell("GetRandom 4")
    run.write(INCREMENT, "GetRandom 4")
    if answer(run.client) is not None:
        fail("a change that was not saved is answered")
    end(run.process, FILE)
    if (IMAGE.read_bytes(), identity()) != (kept, old):
        fail("the image is another one, though nothing could be saved")
    if os.path.lexists("socket"):
        fail("the socket is still there")
    BESIDE.rmdir()
    print("a change that cannot be saved is not answered, and ends the program: tpmsim: file")


def check_without(program):
    """Without the option nothing is saved before a connection ends."""
    IMAGE.unlink()
    run = Run(program, options=())
    run.tell(*LINES)
    run.kill()
    if IMAGE.exists():
        fail("there is an image, without the option")
    print("without the option nothing is saved before a connection ends")


program, count = sys.argv[1:]
check_each(program)
check_kills(program, int(count))
check_pieces(program)
check_unsaved(program)
check_without(program)
