"""Plays scripts: makes the lines that `tpmsim run --trace` prints for a script, and says how the
script ends.
"""

import re
from typing import Iterable

from tpmsim.faults import TpmsimError
from tpmsim.model.machine import Model
from tpmsim.standard import lines, Profile

LINE_BYTES, LINES = 65_536, 1_048_576
RANDOM_BYTES = 256
LAST_LOCALITY, MOST_MILLISECONDS = 4, 2**32 - 1

DECIMAL, HEX = re.compile(rb"0*([0-9]{1,19})"), re.compile(rb"(?:[0-9A-Fa-f]{2})*")


class BadLine(TpmsimError):
    """A line that is not a valid script line."""


def found(form: re.Pattern[bytes], text: bytes) -> re.Match[bytes]:
    match = form.fullmatch(text)
    if not match:
        raise BadLine
    return match


def decimal(text: bytes, most: int) -> int:
    value = int(found(DECIMAL, text)[1])
    if value > most:
        raise BadLine
    return value


def hex_bytes(text: bytes) -> bytes:
    return bytes.fromhex(found(HEX, text)[0].decode("ascii"))


class Words:
    """The settings for the next command in a script: its locality, its random bytes, and the
    elapsed milliseconds. A `do` line encodes a command of the profile.
    """

    def __init__(self, profile: Profile = Profile.SYMMETRIC) -> None:
        self.locality, self.random, self.elapsed = 0, bytes(RANDOM_BYTES), 0
        self.profile = profile

    def take(self, line: bytes) -> bytes | None:
        """Returns the buffer of a command's line. For the line of a setting, stores the setting and
        returns None. Refuses `power`.
        """
        word, space, argument = line.partition(b" ")
        if len(line) > LINE_BYTES:
            raise BadLine
        if not line or line.startswith(b"#"):
            return None
        if word == b"cmd":
            return hex_bytes(argument)
        if not space:
            raise BadLine
        if word == b"do":
            return self.assembled(argument)
        self.told(word, argument)
        return None

    def told(self, word: bytes, argument: bytes) -> None:
        if word == b"loc":
            self.locality = decimal(argument, LAST_LOCALITY)
        elif word == b"wait":
            self.elapsed += decimal(argument, MOST_MILLISECONDS - self.elapsed)
        elif word == b"entropy" and 1 <= len(hex_bytes(argument)) <= RANDOM_BYTES:
            self.random = (hex_bytes(argument) * RANDOM_BYTES)[:RANDOM_BYTES]
        else:
            raise BadLine

    def assembled(self, argument: bytes) -> bytes:
        try:
            return lines.assemble(argument, self.profile)
        except lines.Fault:
            raise BadLine from None


class Player(Words):
    """A device that plays lines; `starved` contains the numbers of the commands whose allocation
    fails.
    """

    def __init__(self, device: Model | None = None, starved: Iterable[int] = ()) -> None:
        self.device = device or Model()
        super().__init__(self.device.profile)
        self.starved, self.commands = starved, 0

    def play(self, line: bytes) -> list[str]:
        if line == b"power":
            self.device.power_cycle()
            return ["power"]
        buffer = self.take(line)
        return [] if buffer is None else self.executed(buffer)

    def executed(self, buffer: bytes) -> list[str]:
        self.commands += 1
        is_starved = self.commands in self.starved
        outcome = self.device.execute(buffer, self.locality, self.random, self.elapsed, is_starved)
        elapsed, self.elapsed = self.elapsed, 0
        return [lines.traced(outcome, self.locality, elapsed), outcome.response.hex()]


def played(text: bytes, profile: Profile = Profile.SYMMETRIC) -> tuple[list[tuple[int, str]], str]:
    """Returns the lines that a script prints, each with the number of the script line that caused
    it, and the message on standard error, which is empty if the script ends well.
    """
    player, printed = Player(Model(profile=profile)), []
    script = text.removesuffix(b"\n").split(b"\n") if text else []
    for number, line in enumerate(script[:LINES], 1):
        try:
            printed += [(number, it) for it in player.play(line)]
        except BadLine:
            return printed, f"tpmsim: script line {number}"
    return printed, "tpmsim: file" if len(script) > LINES else ""
