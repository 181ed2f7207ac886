"""The expected responses of `tpmsim serve` to the bytes of connections, in consecutive runs on one
image. Each line of a script is one of these:

    new HEX        removes the image; the next run makes a device from these random bytes
    image HEX      replaces the image with these bytes
    run N          begins a run on the image, from locality N
    connection N   begins a connection, which sends its bytes in pieces of N
    send HEX       sends some of its bytes
    dry            from here on, this run has no more random bytes for commands
"""

import hashlib
from dataclasses import dataclass, field
from typing import Iterable, Iterator

from tpmsim.model.image import Fault, image, open_image
from tpmsim.model.machine import Model, Outcome
from tpmsim.standard import CC, COMMAND_BYTES, frames, HEADER_BYTES
from tests.common.outputs import RANDOM_BYTES, repeated

# The offset of the end of commandSize in a command.
SIZE_END = 6

# The size of a response to TPM2_ReadClock, and the bytes in it that contain the host's time, which
# is not compared.
CLOCK_ANSWER_BYTES, TIMES = 35, slice(10, 26)


def random_of(buffer: bytes) -> bytes:
    """Returns the random bytes of a command. They depend only on the command, and not on earlier
    commands.
    """
    return repeated(hashlib.sha256(buffer).digest()[:7])


def without_times(buffer: bytes, response: bytes) -> bytes:
    """Returns a response with the host's time set to 0, because that time is not compared."""
    is_clock = buffer[6:10] == frames.number(CC.ReadClock, 4)
    if is_clock and len(response) == CLOCK_ANSWER_BYTES:
        return response[: TIMES.start] + bytes(16) + response[TIMES.stop :]
    return response


def without_clock(device: Model) -> bytes:
    """Returns the image of a device with its clock set to 0, because the clock is not compared."""
    clock, device.clock = device.clock, 0
    text = image(device)
    device.clock = clock
    return text


class Connection:
    """The bytes that a connection sends, in pieces of one size. The class also stores the bytes
    that are not yet a complete command, and the commands so far. Each command has the number of the
    line that completes it, and its response.
    """

    def __init__(self, piece: int) -> None:
        self.piece, self.sent, self.left, self.has_ended = piece, b"", b"", False
        self.answered: list[tuple[int, bytes, bytes]] = []

    def send(self, data: bytes) -> Iterator[bytes]:
        """Yields the commands that these bytes complete. If a size field is invalid, the bytes up
        to its end are the last command of the connection.
        """
        self.sent += data
        self.left += data
        while not self.has_ended and len(self.left) >= SIZE_END:
            size = int.from_bytes(self.left[2:SIZE_END], "big")
            if not HEADER_BYTES <= size <= COMMAND_BYTES:
                size, self.has_ended = SIZE_END, True
            if len(self.left) < size:
                return
            buffer, self.left = self.left[:size], self.left[size:]
            yield buffer


def image_told(text: bytes | None) -> str:
    """Describes the contents of a file for comparison: no image, an image of some version, or a
    fault.
    """
    if text is None:
        return "no image"
    try:
        return f"image {text[:6].hex()}: {without_clock(open_image(text)).hex()}"
    except Fault as fault:
        return f"image {fault}"


def device_told(device: Model) -> str:
    """Describes the image of a device, as `image_told` does."""
    return image_told(image(device))


@dataclass
class Run:
    """A run of the program. `number` is the number of the line that begins it. `is_given` is true
    if a line before the run contained its image; otherwise the image was left by the previous run.
    The run is over if random bytes are missing, or if its file is not an image.
    """

    number: int
    locality: int
    image_before: bytes | None
    is_given: bool
    random: bytes = b""
    connections: list[Connection] = field(default_factory=list)
    image_told: str | None = None
    is_dry: bool = False
    error: str = ""

    @property
    def is_over(self) -> bool:
        return bool(self.error)


class Served:
    """The device that is served in all runs that the lines describe, and the contents of its image
    file. A line that makes no sense at its position is ignored.
    """

    def __init__(self) -> None:
        self.device, self.runs = Model(), list[Run]()
        self.run: Run | None = None
        self.image: bytes | None = None
        self.made_of, self.is_given = bytes(RANDOM_BYTES), False

    def play(self, number: int, line: str) -> list[tuple[bytes, Outcome]]:
        """Plays line number `number`. Returns the executed commands with their outcomes."""
        word, _, argument = line.partition(" ")
        if word in ("new", "image"):
            self.end()
            self.take(word, bytes.fromhex(argument))
        elif word == "run":
            self.end()
            self.begin(number, int(argument))
        elif self.run is None or self.run.is_over:
            pass
        elif word == "connection":
            self.run.connections.append(Connection(int(argument)))
        elif word == "dry":
            self.run.is_dry = True
        elif word == "send" and self.run.connections:
            return list(self.executed(self.run, number, bytes.fromhex(argument)))
        return []

    def take(self, word: str, data: bytes) -> None:
        self.is_given = word == "image"
        if self.is_given:
            self.image = data
        else:
            self.image, self.made_of = None, repeated(data)

    def begin(self, number: int, locality: int) -> None:
        """Begins a run. Makes a new device if there is no image. If the image is from an earlier
        run, its device is power-cycled.
        """
        self.run = Run(number, locality, self.image, self.is_given)
        self.runs.append(self.run)
        if self.image is None:
            self.device, self.run.random = Model(self.made_of), self.made_of
        elif not self.is_given:
            self.device.power_cycle()
        else:
            try:
                self.device = open_image(self.image)
            except Fault as fault:
                self.run.error = f"tpmsim: image {fault}"

    def end(self) -> None:
        """Ends a run. Its device is saved if the run had a connection."""
        if self.run:
            if self.run.connections:
                self.image, self.is_given = without_clock(self.device), False
            self.run.image_told = image_told(self.image)
        self.run = None

    def executed(self, run: Run, number: int, data: bytes) -> Iterator[tuple[bytes, Outcome]]:
        connection = run.connections[-1]
        for buffer in connection.send(data):
            if run.is_dry:
                run.error = "tpmsim: entropy"
                return
            random = random_of(buffer)
            run.random += random
            outcome = self.device.execute(buffer, run.locality, random)
            connection.answered.append((number, buffer, outcome.response))
            yield buffer, outcome


def played(script: Iterable[str]) -> list[Run]:
    """Returns the runs that the lines describe."""
    served = Served()
    for number, line in enumerate(script, 1):
        served.play(number, line)
    served.end()
    return served.runs
