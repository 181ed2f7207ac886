"""Repeats `power --cut` on a device with damage inside its journal, and makes a different call fail
each time:

    python3 damage_each.py PROGRAM HOSTS SHIM SHARE

Afterwards the journal must either be unchanged, byte for byte, or replaced by a new journal. The
new journal must contain the device before the damage, or that device after the power cycle. Only
one in every SHARE runs is made.
"""

import pathlib
import sys
from typing import Iterator

from tests.common.faults import Failing
from tests.keeping.counted import DEFINE, INCREMENT, POWER, STARTUP, State
from tests.keeping.hosts import Files, Power, ProgramPower
from tests.keeping.trials import check_all, made, Start, Sweep, Told

FRONT = State(is_there=True, is_started=True, is_defined=True, count=1)


class Cut(Power):
    name, options = "tpmsim-power --cut", ["--cut"]


class ProgramCut(ProgramPower):
    name, options = "tpmsim power --cut", ["--cut"]


class Damaged(Sweep):
    """A damaged device, and a host that cuts off the damage."""

    right = "whole, or as it was"

    @property
    def label(self) -> str:
        return self.host.name

    def wrong(self, told: Told) -> str:
        before, now = (self.room / it / "journal" for it in ("damaged", self.folder))
        if now.read_bytes() == before.read_bytes():
            return "" if FRONT in told.counted.states else "nothing was done"
        return super().wrong(told)


def cases(files: Files, room: pathlib.Path, shim: Failing) -> Iterator[Damaged]:
    """Makes a device that has counted to 3, with damage in the record of the second increment."""
    folder = room / "damaged"
    sizes = made(files, folder, (STARTUP, DEFINE, *[INCREMENT] * 3))
    text = bytearray((folder / "journal").read_bytes())
    text[(sizes[-3] + sizes[-2]) // 2] ^= 1
    (folder / "journal").write_bytes(text)
    for host in (Cut, ProgramCut):
        yield Damaged(files, room, host, Start("", FRONT, folder), (POWER,), shim)


if __name__ == "__main__":
    check_all(cases, Files.of(*sys.argv[1:3]), *sys.argv[3:])
