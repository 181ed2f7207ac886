"""Repeats a power cycle that keeps past journals, and makes a different call fail each time:

    python3 past_each.py PROGRAM HOSTS SHIM

The Python host keeps three past journals. After a power cycle with a fault and one without, the
past journals must be numbered from 1 on, beginning with the latest, and none may be missing.
"""

import errno
import pathlib
import sys
from typing import Iterator

from tests.common.faults import Act, Failing
from tests.keeping.counted import BEGIN, NOTHING, POWER, STARTUP
from tests.keeping.hosts import does, Files, Python, Refused
from tests.keeping.trials import check_all, made, Start, Sweep, Told
from tpmsim.device import KeptDevice

KEPT, PAST = 3, "ABC"


class KeepingPast(Python):
    """The Python host with the option to keep past journals."""

    def begin(self, folder: str) -> None:
        with self.refusing():
            self.device = KeptDevice(folder, keep=KEPT)


class Past(Sweep):
    """A device with three past journals, each with one letter. The latest one contains A."""

    label, right = "", "no journal of the past is lost"
    variants = [(Act.FAILS, errno.EIO), (Act.DOES_AND_FAILS, errno.EIO), (Act.IS_KILLED, 0)]

    def wrong(self, told: Told) -> str:
        """Cycles the power again, and returns what is wrong with the past journals."""
        host = self.host(self.files)
        try:
            for act in (BEGIN, POWER):
                does(host, act, self.folder)
        except Refused as fault:
            return str(fault)
        finally:
            host.close()
        past = [self.kind_of(f"journal.{number}") for number in range(1, KEPT + 1)]
        is_right = past in (["journal", "A", "B"], ["new", "journal", "A"])
        return "; ".join(told.strange) if is_right else f"the past is {past}"

    def kind_of(self, name: str) -> str:
        """Describes a past journal: its letter, the journal at the beginning, or a new one."""
        path, first = pathlib.Path(self.folder, name), self.room / "kept" / "journal"
        text = path.read_bytes() if path.exists() else b"none"
        if text == first.read_bytes():
            return "journal"
        return text.decode("ascii") if len(text) < 5 else "new"


def cases(files: Files, room: pathlib.Path, shim: Failing) -> Iterator[Past]:
    kept = room / "kept"
    made(files, kept, [STARTUP])
    for number, letter in enumerate(PAST, 1):
        (kept / f"journal.{number}").write_text(letter, "ascii")
    yield Past(files, room, KeepingPast, Start("", NOTHING, kept), (POWER,), shim)


if __name__ == "__main__":
    check_all(cases, Files.of(*sys.argv[1:3]), *sys.argv[3:])
