"""Makes allocations of `tpmsim` fail:

    python3 starved.py PROGRAM

Each allocation fails in turn: in one run only that allocation, in another run all later ones too.
If all later ones fail too, the run must end with status 3 and `tpmsim: memory`. If only one
allocation fails, the run must end either in the same way or as if no allocation had failed,
because some collections retry with a smaller size.
"""

import functools
import pathlib
import socket
import sys
from dataclasses import dataclass

from client import connected, received
from tests.common import places, streams
from tests.common.faults import Refusals
from tests.common.shims import FILE, HERE, SERVE, WELL, Ending, Room, Turns, fail

TOP = HERE.parent.parent
SCRIPT = TOP / "examples/measured_boot.tpm"
MEMORY = Ending(3, error=b"tpmsim: memory\n")

# The bytes that a connection sends: TPM2_Startup(CLEAR), TPM2_GetRandom of 4 bytes, and a command
# that changes ownerAuth.
SENT = bytes.fromhex(
    "80010000000c000001440000"
    "80010000000c0000017b0004"
    "8002000000200000012940000001000000094000000900000100000003"
    "6f776e"
)
ROOM = Room("served")

# Results are cached, because most runs do not change the image file.
image_told = functools.cache(streams.image_told)


def out_of(name):
    return (TOP / name).read_bytes()


def check_words(program):
    """Tests runs that need only arguments, and no client."""
    script, line = str(SCRIPT), "Startup 0"
    pathlib.Path("bad").write_text("do Startup 3 3\n", "ascii")
    pathlib.Path("startup").write_text("do Startup 0\n", "ascii")
    keep = ["run", "--image", "kept", "--entropy", "/dev/urandom"]
    played = Ending(0, out_of("examples/measured_boot.out"))
    traced = Ending(0, places.script("measured_boot").with_suffix(".trace").read_bytes())
    usage = Ending(2, error=b"tpmsim: usage\n")
    cases = [
        ("a script", ["run", script], played),
        ("its trace", ["run", "--trace", script], traced),
        ("a line", ["asm", line], Ending(0, b"80010000000c000001440000\n")),
        ("the line of a buffer", ["line", "80010000000c000001440000"], Ending(0, b"Startup 0\n")),
        ("a buffer without a line", ["line", "80"], Ending(2, error=b"tpmsim: line NoLine\n")),
        ("no buffer", ["line", "8"], usage),
        ("a device that is kept", [*keep, "startup"], Ending(0, b"80010000000a00000000\n")),
        ("no script", ["run", "none"], FILE),
        ("a bad script", ["run", "bad"], Ending(2, error=b"tpmsim: script line 1\n")),
        ("a bad line", ["asm", "Startup"], Ending(2, error=b"tpmsim: asm Missing\n")),
        ("no words", [], usage),
        ("too few words", ["run"], usage),
        ("too many words", ["run", script, script], usage),
        ("another word", ["rum", script], usage),
        ("another option", ["run", "--tracing", script], usage),
        ("a number that is none", [*SERVE, "x"], usage),
    ]
    for label, words, whole in cases:
        # After a fault the program checks the environment to decide whether to explain the fault.
        program.check(label, words, whole, explains=whole.status != 0)
    program.check("a script on standard input", ["run", "-"], played, SCRIPT.read_bytes())
    for words in ["--help", "--version", "run --help", "serve --help"]:
        program.check(words, words.split())


@dataclass(frozen=True)
class Service:
    """The result of a run that serves clients: how it ends, its responses, and the files in its
    folder.
    """

    ending: Ending
    answers: bytes
    image: str
    others: tuple


def talked(turns):
    """Returns the responses that a client receives; empty if the run ends before it connects."""
    client = connected(ROOM.path / "socket", turns)
    if not client:
        return b""
    try:
        client.sendall(SENT)
        client.shutdown(socket.SHUT_WR)
        return received(client)
    except (BrokenPipeError, ConnectionResetError):
        return b""


def check_service(program, label, image, connections):
    """Tests runs that serve this many connections, with or without an image. A run makes all its
    allocations before it creates its socket. Therefore, if an allocation fails, the run sends no
    response, and leaves only the lock file of its image.
    """

    def run(*refused):
        ROOM.furnish(image, bytes(1024))
        turns.begin(*refused)
        answers = talked(turns) if connections else b""
        return Service(turns.ended(), answers, image_told(ROOM.image), ROOM.left)

    ROOM.furnish(image, b"")
    with Turns(program, [*SERVE, str(connections)], folder=ROOM.path) as turns:
        whole = run()
        if whole.ending != WELL or whole.others or bool(whole.answers) != bool(connections):
            fail(f"{label}, nothing refused: {whole}")
        program.compare(label, turns, run, whole, Service(MEMORY, b"", image_told(image), ()))
    print(f"{label}: {MEMORY.error.decode().strip()}")
    return ROOM.image


program = Refusals(sys.argv[1], MEMORY)
check_words(program)
check_service(program, "no image and no connection", None, 0)
image = check_service(program, "no image, and a connection", None, 1)
check_service(program, "an image and no connection", image, 0)
check_service(program, "an image and a connection", image, 1)
