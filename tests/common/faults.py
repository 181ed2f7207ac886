"""Runs a program or a host many times, and makes a different call or allocation fail in each run.

The shim failing.c makes calls fail, and the shim refuse.c makes allocations fail.
"""

import ctypes
import errno
import functools
import os
import pathlib
import sys
from dataclasses import dataclass
from enum import IntEnum
from typing import Any, Callable, Iterable, Iterator

from tests.common.shims import Ending, fail, Path, Process, Shim, Turns

# The faults that failing.c can cause in a call.
Act = IntEnum(
    "Act",
    "FAILS FAILS_ON STORMS DOES_AND_FAILS DOES_HALF IS_KILLED DOES_AND_IS_KILLED"
    " DOES_HALF_AND_IS_KILLED AWAITS",
)
ERRORS = [errno.EIO, errno.ENOSPC, errno.EINTR, errno.ENOMEM, errno.EMFILE, errno.EACCES]
VARIANTS = [
    *((Act.FAILS, it) for it in ERRORS),
    (Act.FAILS_ON, errno.EIO),
    (Act.FAILS_ON, errno.ENOSPC),
    (Act.STORMS, errno.EINTR),
    (Act.DOES_AND_FAILS, errno.EIO),
    (Act.DOES_AND_FAILS, errno.EINTR),
    (Act.DOES_HALF, 0),
    (Act.IS_KILLED, 0),
    (Act.DOES_AND_IS_KILLED, 0),
    (Act.DOES_HALF_AND_IS_KILLED, 0),
]
KILLS = {Act.IS_KILLED, Act.DOES_AND_IS_KILLED, Act.DOES_HALF_AND_IS_KILLED}
MOST_CALLS = 2000
CALLS = pathlib.Path("calls")
MOVING = "read ", "write ", "recv ", "send ", "pread ", "pwrite "

# Functions that allocate memory, but that refuse.c does not replace.
OTHERS = (
    "aligned_alloc calloc memalign mmap mmap64 mremap posix_memalign pvalloc reallocarray"
    " brk sbrk valloc".split()
)
FOREVER = 1_000_000_000


@dataclass(frozen=True)
class Fault:
    """The number of the call that fails, and how it fails. No call has the number 0."""

    number: int = 0
    act: Act = Act.FAILS
    error: int = errno.EIO

    def __str__(self) -> str:
        name = self.act.name.lower().replace("_", " ")
        return f"call {self.number} {name} {errno.errorcode.get(self.error, '')}".strip()

    def told(self, report: object) -> str:
        """Returns the value of the environment variable FAILING."""
        return f"{self.number} {self.act} {self.error} {report}"


NO_FAULT = Fault()


class Failing:
    """Controls the shim failing.c, in this process and in programs. The shim reports to a file in
    the folder `room`.
    """

    def __init__(self, path: str, room: pathlib.Path) -> None:
        self.path, self.report = pathlib.Path(path).resolve(), room / "report"
        self.library = ctypes.CDLL(None)

    def begins(self, fault: Fault, part: str) -> None:
        number, words = ctypes.c_long(fault.number), (str(self.report).encode(), part.encode())
        self.library.failing_begins(number, int(fault.act), fault.error, *words)

    def goes_on(self, is_on: bool) -> None:
        self.library.failing_goes_on(int(is_on))

    def environment(self, fault: Fault) -> dict[str, str]:
        return {"LD_PRELOAD": str(self.path), "FAILING": fault.told(self.report)}

    def met(self) -> str:
        """Returns the name of the call that failed, or an empty string if the host ended before
        that call.
        """
        if not self.report.exists():
            return ""
        text = self.report.read_text("utf8").strip()
        self.report.unlink()
        return text


def sweep(
    tries: Callable[[Fault], tuple[str, str]],
    share: int = 1,
    variants: Iterable[tuple[Act, int]] = VARIANTS,
) -> Iterator[str]:
    """Makes each call fail in turn, with each fault, but makes only one in every `share` of these
    runs. Yields, for each run, the fault and a description of what is wrong, or an empty string if
    nothing is wrong.
    """
    for turn, variant in enumerate(variants):
        for number in range(1 + turn % share, MOST_CALLS, share):
            fault = Fault(number, *variant)
            met, wrong = tries(fault)
            yield wrong and f"{fault}, {met}: {wrong}"
            if not met:
                break


def said(line: str) -> None:
    print(line, file=sys.stderr, flush=True)


class Tears(Shim):
    """A program with the shim failing.c, which counts all calls of a run, and logs them to a file."""

    def __init__(self, program: str) -> None:
        super().__init__(program, "failing")

    def begins(
        self,
        words: Iterable[str],
        folder: Path = ".",
        fault: Fault = NO_FAULT,
        calls: pathlib.Path = CALLS,
        report: Path = os.devnull,
    ) -> Process:
        """Begins a run with a fault. `calls` and `report` are the files to which the shim writes."""
        calls.unlink(missing_ok=True)
        told = fault.told(report)
        return self.begun(words, folder, FAILING=told, FAILING_CALLS=calls.resolve())

    @staticmethod
    def noted(calls: pathlib.Path = CALLS) -> list[str]:
        """Returns the calls of a run so far, each with the name of the file that it accesses."""
        return [call.strip() for call in calls.read_text("ascii").splitlines()]

    def tear(
        self,
        label: str,
        run: Callable[[Fault], Any],
        whole: object,
        judge: Callable[[list[str], Any], str],
        error_of: Callable[[str], int] = lambda _: errno.EIO,
    ) -> list[str]:
        """Makes each call of a run fail in turn. `run` makes a run with a fault. `judge` gets the
        calls up to the failed one and the result of the run, and returns what is wrong. If a call
        transfers bytes, it transfers only half of them in another run, which must have the same
        result as the run without a fault, `whole`. Returns the calls.
        """
        given = run(NO_FAULT)
        if given != whole:
            fail(f"{label}, nothing torn: {given}")
        calls = self.noted()
        for at, call in enumerate(calls, 1):
            wrong = judge(calls[:at], run(Fault(at, Act.FAILS, error_of(call))))
            if wrong:
                fail(f"{label}, call {at}, {call}: {wrong}")
            if call.startswith(MOVING) and run(Fault(at, Act.DOES_HALF)) != whole:
                fail(f"{label}, call {at}, {call} moves a half")
        return calls


class Refusals(Shim):
    """A program with the shim refuse.c, which makes allocations fail. The two numbers of a run are
    the numbers of the first and the last allocation that fail. `memory` is how a run ends that gets
    no memory.
    """

    def __init__(self, program: str, memory: Ending) -> None:
        super().__init__(program, "refuse")
        self.memory = memory
        if "malloc" not in self.check_calls(OTHERS):
            fail("the program does not get its memory by malloc")

    @staticmethod
    def each(turns: Turns, run: Callable[[int, int], Any]) -> Iterator[tuple[int, Any, Any]]:
        """Makes each allocation fail in turn: in one run only that allocation, and in another run
        all later ones too. `run` starts a run with the two numbers. Yields each allocation's number
        and the results of both runs.
        """
        turn = 1
        while True:
            alone = run(turn, turn)
            if not turns.is_marked:
                break
            yield turn, alone, run(turn, FOREVER)
            turn += 1
        if turn == 1:
            fail("nothing could be refused")

    def compare(
        self,
        label: str,
        turns: Turns,
        run: Callable[[int, int], Any],
        whole: object,
        starved: object,
        needed: int = FOREVER,
        explains: bool = False,
    ) -> int:
        """Checks that a run results in `starved` if an allocation and all later ones fail. If only
        one allocation fails, the result may also be `whole`. If only allocations after the first
        `needed` ones fail, the result must be `whole`. If `explains` is true, the program uses its
        last allocations only to explain a fault that it has already printed. Then `needed` is at
        least 1, and is determined by the first run that results in `whole`. Returns the number of
        allocations.
        """
        for turn, alone, rest in self.each(turns, run):
            if explains and 1 < turn <= needed and rest == whole:
                needed = turn - 1
            wanted = starved if turn <= needed else whole
            if alone not in (whole, wanted):
                fail(f"{label}, allocation {turn} refused: {alone}")
            if rest != wanted:
                fail(f"{label}, refused all from allocation {turn}: {rest}")
        return turn

    def check(
        self,
        label: str,
        words: Iterable[str],
        whole: Ending | None = None,
        stdin: bytes = b"",
        needed: int = FOREVER,
        explains: bool = False,
    ) -> int:
        """Like `compare`, but begins the runs itself, and compares how they end. If no allocation
        fails, a run must end with the result `whole`, if that is given.
        """
        with Turns(self, words) as turns:
            run = functools.partial(turns.run, stdin=stdin)
            given = run()
            if whole not in (None, given):
                fail(f"{label}, nothing refused: {given}")
            allocations = self.compare(label, turns, run, given, self.memory, needed, explains)
        print(f"{label}: {self.memory.error.decode().strip()}")
        return allocations
