"""Plays scripts that are written by hand with the Python device, without running the simulator.

The comment above one or more commands names their outcome: `: SUCCESS`, or a response code with its
number, such as `: VALUE/p1 (1C4)`. It applies up to the next comment or empty line. If the outcome
of a command differs from its comment, the script is not played further.
"""

import pathlib
import re
from dataclasses import dataclass

from tpmsim.model import player
from tpmsim.model.machine import Model
from tpmsim.standard import frames, lines, Profile
from tests.common.made import COMPLETE
from tests.common.shims import Ending
from tests.common.outputs import Played, POWER, RANDOM_BYTES, repeated

WANTED = re.compile(r": (SUCCESS|[A-Z][A-Z0-9_]+(?:/[hps][1-9])?)(?: \(([0-9A-F]{3})\))?[.,;]")
OUTCOMES = {"SUCCESS", *frames.CODES}


def wanted_of(comment):
    """Returns the outcome that a comment names: None for a success, or the name of a response code."""
    named = [it for it in WANTED.findall(comment) if it[0].partition("/")[0] in OUTCOMES]
    if len(named) != 1:
        raise ValueError(f"the comment names {len(named)} outcomes:{comment}")
    name, shown = named[0]
    if name == "SUCCESS":
        return None
    code = frames.code_of(name)
    if shown != f"{code:03X}":
        raise ValueError(f"{name} is {code:03X}, and not {shown or 'without a number'}")
    return name


def buffer_of(line, profile=Profile.SYMMETRIC):
    """Returns the command buffer in a script's line, or None if the line has none."""
    word, _, argument = line.partition(" ")
    if word == "do":
        return lines.assemble(argument.encode("ascii"), profile)
    return bytes.fromhex(argument) if word == "cmd" else None


@dataclass(frozen=True)
class Command:
    """A command of a script: its buffer, locality and random bytes, the milliseconds since the
    previous command, and the comment that names its outcome.
    """

    buffer: bytes
    locality: int
    random: bytes
    elapsed: int
    comment: str


def events_of(script, profile=Profile.SYMMETRIC):
    """Yields the commands of a script, and None for each power cycle. Stops at a line that is bad
    in this profile.
    """
    locality, random = 0, bytes(RANDOM_BYTES)
    comment, in_comment, elapsed = "", False, 0
    for line in script.splitlines():
        word, _, argument = line.partition(" ")
        try:
            buffer = buffer_of(line, profile)
        except lines.Fault:
            return
        if line.startswith("#"):
            comment = (comment if in_comment else "") + line[1:]
        elif word == "":
            comment = ""
        elif buffer is not None:
            yield Command(buffer, locality, random, elapsed, comment)
            elapsed = 0
        elif word == "loc":
            locality = int(argument)
        elif word == "entropy":
            random = repeated(bytes.fromhex(argument))
        elif word == "power":
            yield None
        elif word == "wait":
            elapsed += int(argument)
        else:
            return
        in_comment = line.startswith("#")


def played_by(script, device):
    """Yields the outcomes of a script's events. Raises ValueError if a comment names another
    outcome.
    """
    for it in events_of(script, device.profile):
        if it is None:
            device.power_cycle()
            yield POWER
            continue
        wanted = wanted_of(it.comment)
        outcome = device.execute(it.buffer, it.locality, it.random, it.elapsed)
        if outcome.refused != wanted:
            named = outcome.refused or "a success"
            raise ValueError(f"it is {named}, which is not said:{it.comment}")
        yield Played(outcome, it.locality, it.elapsed)


def played(path: pathlib.Path) -> list[Played]:
    """Returns the outcomes of the events of a script that is written by hand. Raises ValueError if
    a comment names another outcome.
    """
    found: list[Played] = []
    is_complete = path.parent.name == COMPLETE
    device = Model(profile=Profile.COMPLETE if is_complete else Profile.SYMMETRIC)
    try:
        for event in played_by(path.read_text("ascii"), device):
            found.append(event)
    except ValueError as fault:
        raise ValueError(f"event {len(found) + 1}: {fault}") from None
    return found


def device_behind(script):
    """Returns the Python device after it has executed a script."""
    device = Model()
    for _ in played_by(script, device):
        pass
    return device


# Functions that return the expected results of `tpmsim`.


def fault_of(line):
    """Returns the fault of a line, with its column; empty if the line has no fault."""
    try:
        lines.assemble(line)
        return ""
    except lines.Fault as fault:
        return str(fault)


def assembled(line):
    """Returns the expected result of `tpmsim asm` for a line."""
    fault = fault_of(line)
    if fault:
        return Ending(2, error=f"tpmsim: asm {fault}\n".encode("ascii"))
    return Ending(0, lines.assemble(line).hex().encode("ascii") + b"\n")


def line_told(buffer):
    """Returns the expected result of `tpmsim line` for a buffer."""
    line = lines.line_of(buffer)
    if line is None:
        return Ending(2, error=b"tpmsim: line NoLine\n")
    return Ending(0, line.encode("ascii") + b"\n")


def traced(script):
    """Returns the expected result of `tpmsim run --trace` for a script. The lines may contain any
    bytes.
    """
    printed, error = player.played(script)
    status = {"": 0, "tpmsim: file": 3}.get(error, 2)
    output = "".join(f"{line}\n" for _, line in printed).encode("ascii")
    return Ending(status, output, error.encode("ascii") + b"\n" if error else b"")
