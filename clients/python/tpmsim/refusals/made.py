"""Makes each refusal of the table: the commands that precede it on a new device, and the command
that is refused.
"""

from __future__ import annotations

import functools
from dataclasses import dataclass

from tpmsim.device.base import Executed, line
from tpmsim.device.told import Device, ModelDevice
from tpmsim.faults import BadValue
from tpmsim.refusals.general import GENERAL, HEADERS
from tpmsim.refusals.own import OWN
from tpmsim.refusals.stage import PlainDevice, Stage
from tpmsim.standard import CC
from tpmsim.standard.rows import AnyRow, Row, rows_named


@dataclass(frozen=True)
class Refusal:
    """A command that the device refuses as the row says, after the commands in `before` on a new
    device. For a row that no script reaches, `far` is the state text of the device before the
    command.
    """

    row: AnyRow
    before: tuple[bytes, ...]
    buffer: bytes
    far: bytes = b""

    @property
    def script(self) -> list[str]:
        """The lines of a script whose last command is refused."""
        return [line(it, self.row.profile).rstrip() for it in (*self.before, self.buffer)]

    @property
    def state(self) -> bytes:
        """The state text of the device before the command."""
        if self.far:
            return self.far
        with PlainDevice(self.row.profile) as device:
            for it in self.before:
                device.execute(it)
            return bytes(device.snapshot())

    def device(self) -> Device:
        """Returns a device on which `execute(buffer)` gives the refusal."""
        made = Device()
        made.restore(self.state)
        return made


def is_refused(row: AnyRow, before: tuple[bytes, ...], buffer: bytes) -> bool:
    """Whether a new device refuses a command as a row says, after the commands before it."""
    with PlainDevice(row.profile) as device:
        for it in before:
            device.execute(it)
        return is_row(row, device, buffer)


def is_row(row: AnyRow, device: ModelDevice, buffer: bytes) -> bool:
    """Whether a device refuses a command as a row says."""
    answered = device.execute(buffer)
    found = answered.check, int.from_bytes(answered.response[6:10], "big")
    return found == (row.check, row.code)


@functools.cache
def made(row: AnyRow) -> Refusal:
    """Returns a command that the device refuses as a row says. Raises KeyError if none is known."""
    if not isinstance(row, Row):
        return Refusal(row, (), HEADERS[row.check])
    stage = Stage(row.command)
    if row.check in GENERAL:
        buffer = GENERAL[row.check](stage, row)
        stage = Stage(CC.Startup) if is_unstarted(row) else stage
    else:
        buffer = OWN[row.command, row.check](stage).buffer()
    before = tuple(it.buffer for it in stage.device.events if isinstance(it, Executed))
    return Refusal(row, before, buffer, bytes(stage.device.snapshot()) if row.is_far else b"")


def is_unstarted(row: Row) -> bool:
    """Whether a device that is not started refuses the command, as the row says."""
    return row.check == "G5" and row.command != CC.Startup


def shortened(refusal: Refusal) -> Refusal:
    """Returns the refusal without the commands before it that it does not need."""
    before, row = refusal.before, refusal.row
    for at in reversed(range(len(before))):
        less = before[:at] + before[at + 1 :]
        if not refusal.far and is_refused(row, less, refusal.buffer):
            before = less
    return Refusal(row, before, refusal.buffer, refusal.far)


def refusal(command: str, check: str, code: str = "") -> Refusal:
    """Returns a device and a command that it refuses, by the command's name, the check, and the
    name of the response code if the check has several. Raises BadValue if no row or several rows
    have these names.

    >>> refused = refusal("NV_Write", "A2")
    >>> with refused.device() as device:
    ...     device.execute(refused.buffer).check
    'A2'
    """
    found = rows_named(command, check, code)
    if len(found) > 1:
        raise BadValue("code", code, f"one of {', '.join(it.code_name for it in found)}")
    return shortened(made(found[0]))
