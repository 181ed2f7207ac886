"""Makes the calls of `tpmsim` that access files, its socket and the clock fail, one by one:

    python3 torn.py PROGRAM

The shim failing.c logs the calls of a run in order. Then each call is made to fail, in a run of its
own. If the call transfers bytes, it transfers only half of them in another run. The table ENDINGS
has the expected results. A client sends one command after another, and waits for each response, so
that it knows which commands were executed. The Python device determines the expected responses and
the expected device in the image.
"""

import collections
import errno
import sys
from dataclasses import dataclass, field, replace
from functools import partial

import torn_rivals
from client import answer, connected
from tests.common.faults import MOVING, NO_FAULT, Tears
from tests.common.shims import close, ENTROPY, FILE, HERE, SERVE, SOCKET, WELL, Ending, Room, ended
from tests.common.shims import fail
from tpmsim.model import machine
from tpmsim.model.image import image, open_image
from tpmsim.standard import lines
from tests.common.outputs import repeated
from tests.common.streams import device_told, image_told

TOP = HERE.parent.parent
SCRIPT = TOP / "examples/measured_boot.tpm"
ROOM = Room("torn")

# Functions that access files, sockets or the clock, and that the shim does not replace.
OTHERS = (
    "accept clock_nanosleep creat dup dup2 fopen lseek mmap poll readv recvfrom recvmsg renameat2"
    " sendfile sendmsg sendto shutdown splice sync writev"
).split()

# Texts that the test prints for additional effects of a failed call.
NONE, ALONE = "", ", that connection alone ends"
OLD, NEW = ", the old image stays", ", the new image is there"


@dataclass(frozen=True)
class End:
    """The result of a call that fails: how the run ends, the files that it leaves, and additional
    effects.
    """

    ending: Ending
    left: tuple = ()
    more: str = NONE

    @property
    def words(self):
        return (self.ending.error.decode().strip() or "the run goes on") + self.more


# The expected results, by function and file. `.0` is the folder next to the socket, and `.0/s` is
# the socket in that folder.
UNSAVED = End(FILE, ("image.new",), OLD)
ENDINGS = {
    call: end
    for end, calls in (
        (End(FILE), "statx image, open image.lock, fchmod image.lock, flock image.lock"),
        (End(FILE), "open image, read image"),
        (End(ENTROPY), "open entropy, statx entropy, read entropy, clock_gettime"),
        (
            End(SOCKET),
            "mkdir .0, chmod .0, socket, bind, listen, chmod .0/s, statx .0/s, link socket",
        ),
        (End(WELL, (".0",)), "unlink .0/s, rmdir .0"),
        (End(SOCKET), "accept4"),
        (End(WELL, (), ALONE), "recv connection, send connection"),
        (End(FILE, (), OLD), "unlink image.new, open image.new"),
        (UNSAVED, "fchmod image.new, write image.new, fsync image.new, open ., rename image.new"),
        (End(FILE, (), NEW), "fsync torn"),
        (End(WELL, ("socket",)), "statx socket, unlink socket"),
    )
    for call in calls.split(", ")
}

# The error with which a call fails, unless it is EIO.
ERRORS = {
    "recv connection": errno.ECONNRESET,
    "send connection": errno.EPIPE,
    "accept4": errno.EMFILE,
    "write image.new": errno.ENOSPC,
}

# The bytes that the connections send. The invalid commands have a wrong tag, a byte too few, or a
# size that ends the connection.
BAD_TAG, CUT = "80030000000c000001440000", "80010000000b0000014400"
BAD_SIZE = "8001000000090000014400"
CONNECTIONS = [
    [
        "Startup 0",
        "GetCapability 0x2 0 64",
        "HierarchyChangeAuth OWNER pw:- 6f6e65",
        BAD_TAG,
        "HierarchyChangeAuth OWNER pw:- 6f6e65",
        "PCR_Read sha256:0,1,2,3,4,5,6,7",
        "HierarchyChangeAuth OWNER pw:6f6e65 74776f",
    ],
    [
        "GetRandom 32",
        CUT,
        "NV_DefineSpace OWNER pw:74776f - 01000000000b0002000200000400",
        f"NV_Write OWNER 01000000 pw:74776f {'a5' * 1024} 0",
        "NV_Read OWNER 01000000 pw:74776f 1024 0",
        BAD_SIZE,
    ],
    [
        "NV_ReadPublic 01000000",
        "NV_Write OWNER 01000000 pw:74776f 5a5a5a 512",
        "NV_Read OWNER 01000000 pw:74776f 1024 0",
        "GetRandom 32",
        "HierarchyChangeAuth OWNER pw:74776f 7468726565",
    ],
]


def buffer_of(words):
    if words[0] == "8":
        return bytes.fromhex(words)
    return lines.assemble(words.encode("ascii"))


SENT = [[buffer_of(words) for words in connection] for connection in CONNECTIONS]
COMMANDS = sum(map(len, SENT))


def random_of(number):
    """Returns the random bytes for the manufacture, if the number is 0, or else for the executed
    command with this number.
    """
    return repeated(bytes([number]))


@dataclass(frozen=True)
class Service:
    """The result of a run: its ending, the responses to each connection, a description of the image,
    and the other files in the folder. The bytes of the image are not compared.
    """

    ending: Ending
    answers: list
    image: str
    left: tuple
    text: bytes | None = field(default=None, compare=False)


def talked(process, buffers):
    """Returns the responses to a connection, one for each command, until the connection ends."""
    answers = []
    client = connected(ROOM.path / "socket", process)
    if not client:
        return answers
    try:
        for buffer in buffers:
            client.sendall(buffer)
            told = answer(client)
            if told is None:
                break
            answers.append(told)
        close(client)
    except (BrokenPipeError, ConnectionResetError):
        client.close()
    return answers


def served(program, text, fault):
    """Runs the program, with or without an image, and makes a call fail."""
    ROOM.furnish(text, b"".join(map(random_of, range(0 if text is None else 1, COMMANDS + 1))))
    process = program.begins([*SERVE, str(len(SENT))], ROOM.path, fault)
    answers = [talked(process, buffers) for buffers in SENT]
    ending, image = ended(process), ROOM.image
    return Service(ending, answers, image_told(image), ROOM.left, image)


class Model:
    """The Python device, either new or opened from an image. It computes the responses to commands,
    and the image.
    """

    def __init__(self, text):
        self.device = machine.Model(random_of(0)) if text is None else open_image(text)
        self.executed = 0

    def answers(self, buffers):
        return [self.answer(buffer) for buffer in buffers]

    def answer(self, buffer):
        self.executed += 1
        size = int.from_bytes(buffer[2:6], "big")
        whole = buffer if size == len(buffer) else buffer[:6]
        return self.device.execute(whole, 0, random_of(self.executed)).response

    @property
    def image(self):
        return device_told(self.device)


# Calls that may fail within a connection.
IN_CONNECTION = {"recv connection", "send connection", "read entropy", "clock_gettime"}


@dataclass(frozen=True)
class Tear:
    """A call that fails, with its result; the number of connections that were accepted before the
    call; and the number of responses that were sent on the last of these connections.
    """

    call: str
    end: End
    accepted: int
    answered: int

    @classmethod
    def of(cls, calls):
        *before, call = calls
        accepted = before.count("accept4")
        last = before[::-1][: before[::-1].index("accept4")] if accepted else []
        return cls(call, ENDINGS[call], accepted, last.count("send connection"))

    def answers(self, model, number, buffers):
        """Returns the expected responses to connection number `number`."""
        if number > self.accepted:
            return model.answers(buffers) if self.end.ending == WELL else []
        if number < self.accepted or self.call not in IN_CONNECTION:
            return model.answers(buffers)
        told = model.answers(buffers[: self.answered])
        if self.call == "send connection":
            model.answer(buffers[self.answered])
        return told

    def is_saved(self, number):
        """Returns whether the run saves the device after connection number `number`."""
        if number > self.accepted:
            return self.end.ending == WELL
        return number < self.accepted or self.end.more != OLD

    def wanted(self, text):
        """Returns the expected result of a run that begins with or without an image."""
        model, saved, answers = Model(text), image_told(text), []
        for number, buffers in enumerate(SENT, 1):
            answers.append(self.answers(model, number, buffers))
            if self.is_saved(number):
                saved = model.image
        return Service(self.end.ending, answers, saved, self.end.left)


def wrong_next(program, torn):
    """Returns what is wrong with the next run. It must open the image that an interrupted run left,
    and remove the other files of that run.
    """
    process = program.begins([*SERVE, "1"], ROOM.path)
    talked(process, [])
    ending, left = ended(process), set(ROOM.left) - {".0"}
    saved = Model(None).image if torn.text is None else torn.image
    if ending != WELL or left or image_told(ROOM.image) != saved:
        return f"the next run: {ending}, {left}, {ROOM.image.hex()}"
    return ""


def wrong(program, text, calls, torn):
    """Returns what is wrong with a run on an image, or on no image, whose last of `calls` failed."""
    if calls[-1] not in ENDINGS:
        return "no call that is known"
    tear = Tear.of(calls)
    if torn != tear.wanted(text):
        return f"{torn}, and not {tear.wanted(text)}"
    if tear.accepted == 1 and tear.end.more == OLD and torn.text != text:
        return "the old image is there, but not byte for byte"
    return wrong_next(program, torn)


def check_service(program, label, text):
    """Repeats a run that serves clients, with or without an image, and makes a different call fail
    each time.
    """
    model = Model(text)
    whole = Service(WELL, [model.answers(it) for it in SENT], model.image, ())
    calls = program.tear(
        label,
        partial(served, program, text),
        whole,
        partial(wrong, program, text),
        lambda call: ERRORS.get(call, errno.EIO),
    )
    print(f"{label}:")
    for call, count in collections.Counter(calls).items():
        half = "; half of the bytes moved: nothing is lost" if call.startswith(MOVING) else ""
        print(f"    {call}, {count} in turn: {ENDINGS[call].words}{half}")


def check_words(program, label, words, stdin=b""):
    """Repeats a run that only reads and prints, and makes a different call fail each time. Each run
    must end with `tpmsim: file`, after it has printed a prefix of its usual output.
    """

    def run(fault=NO_FAULT):
        return ended(program.begins(words, fault=fault), stdin)

    def wrong_ending(_, torn):
        is_front = whole.output.startswith(torn.output)
        return "" if torn == replace(FILE, output=torn.output) and is_front else torn

    whole = run()
    if whole.status != 0 or whole.error:
        fail(f"{label}, nothing torn: {whole}")
    if not program.tear(label, run, whole, wrong_ending):
        fail(f"{label}: no call could fail")
    print(f"{label}: {FILE.error.decode().strip()}; half of the bytes moved: nothing is lost")


program = Tears(sys.argv[1])
program.check_calls(OTHERS)
check_words(program, "a script", ["run", str(SCRIPT)])
check_words(program, "a script on standard input", ["run", "-"], SCRIPT.read_bytes())
check_words(program, "its trace", ["run", "--trace", str(SCRIPT)])
check_words(program, "a line", ["asm", "Startup 0"])
check_words(program, "a help", ["--help"])
check_service(program, "a device that is made", None)
check_service(program, "a device from an image", image(machine.Model(random_of(0))))
torn_rivals.check(program)
