"""Runs each host of a device that is kept in a folder, and makes a different system call fail each
time:

    python3 each_call.py PROGRAM HOSTS SHIM SHARE [WORD]

HOSTS is the folder with the module and the programs. SHIM is the library of failing.c, which
LD_PRELOAD has loaded into this process too. Only one in every SHARE runs is made. With WORD, only
runs of hosts whose names contain WORD are made. In each run a host has to do some operations, and
one of its system calls has a fault from VARIANTS. Then another host opens the folder. The device
must have executed the answered operations, and may have executed the one that was not answered.
Standard error describes what is wrong, and reports the number of runs.
"""

import collections
import pathlib
import sys
from dataclasses import dataclass, field
from typing import Iterator, Sequence

from tests.common.faults import Failing, said
from tests.keeping.counted import DEFINE, INCREMENT, POWER, READ, STARTUP
from tests.keeping.hosts import Files, Host, Module, Power, ProgramPower, Python, Run, Simulator
from tests.keeping.trials import check_all, Starts, Sweep, Told


@dataclass(frozen=True)
class EachCall(Sweep):
    """The runs of a host. `untold` counts the calls whose failure ended an operation with
    an OSError.
    """

    untold: collections.Counter[str] = field(default_factory=collections.Counter)

    def wrong(self, told: Told) -> str:
        if told.untold:
            self.untold[told.met.split(" ")[0]] += 1
        return super().wrong(told)

    def check(self, share: int) -> tuple[int, int]:
        counts = super().check(share)
        if self.untold:
            said(f"{self.label}: OSError without a sentence: {dict(self.untold)}")
        return counts


def cases(files: Files, room: pathlib.Path, shim: Failing) -> Iterator[EachCall]:
    starts = Starts.made(files, room)
    counts, new = (INCREMENT, READ, INCREMENT, READ), (STARTUP, DEFINE, INCREMENT, READ)
    cycles = (INCREMENT, POWER, STARTUP, INCREMENT, READ)
    hosts: list[tuple[type[Host], Sequence[str]]] = [
        (Module, counts),
        (Python, cycles),
        (Run, cycles),
        (Simulator, (STARTUP, *cycles)),
        (Power, (POWER,)),
        (ProgramPower, (POWER,)),
    ]
    for host, acts in hosts:
        yield EachCall(files, room, host, starts.kept, acts, shim)
        if POWER != acts[0]:
            yield EachCall(files, room, host, starts.new, new, shim)
        if INCREMENT == acts[0]:
            yield EachCall(files, room, host, starts.grown, counts[:2], shim)


if __name__ == "__main__":
    check_all(cases, Files.of(*sys.argv[1:3]), *sys.argv[3:])
