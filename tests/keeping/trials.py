"""Trials of a host of a kept device: the operations that it must do, the call that fails, and what
the host reports.

The programs each_call.py, damage_each.py and past_each.py try hosts in this way. swtpm_states.py and
crash_each.py use the reports, the starting points and the counts.
"""

import contextlib
import itertools
import os
import pathlib
import shutil
import signal
import sys
import tempfile
import traceback
from dataclasses import dataclass, field
from typing import Any, Callable, Iterable, Iterator, NoReturn, Self, Sequence

from tests.common.faults import Failing, Fault, KILLS, said, sweep, VARIANTS
from tests.keeping.counted import answer_of, BEGIN, Counted, DEFINE, INCREMENT, INITIALIZE, NOTHING
from tests.keeping.counted import POWER, READ, STARTUP, State, UNWRITTEN
from tests.keeping.hosts import does, Files, Host, Python, Refused

SECONDS, GROWN_BYTES = 600, 256 * 1024
WELL, FAULT, KILLED = 0, 3, -signal.SIGKILL


@dataclass
class Told:
    """The reports of a run, and the call that failed in it. `waiting` are operations that were
    requested and not answered yet. `untold` are the messages of OSErrors that ended operations.
    """

    counted: Counted
    met: str = ""
    waiting: list[str] = field(default_factory=list)
    acts: list[str] = field(default_factory=list)
    strange: list[str] = field(default_factory=list)
    untold: list[str] = field(default_factory=list)

    def asks(self, act: str) -> None:
        self.waiting.append(act)

    def answers(self, response: bytes) -> None:
        """Records that all waiting operations were done, and that the last one had this response."""
        *before, last = self.waiting
        self.waiting = []
        self.counted.has(before)
        self.acts.append(f"{last}={answer_of(last, response)}")
        if not self.counted.answers(last, response):
            self.strange.append("no device answers so")

    def did(self) -> None:
        """Records that all waiting operations were done."""
        self.counted.has(self.waiting)
        self.acts += self.waiting
        self.waiting = []

    def ends(self, how: str) -> None:
        """Records that the waiting operations ended without an answer, so they may have been done."""
        if self.waiting:
            self.acts.append(f"{'+'.join(self.waiting)}:{how}")
            self.counted.may_have(self.waiting)
        self.waiting = []

    def hears(self, word: str, text: str) -> None:
        """Applies a report of a host."""
        if word == "asks":
            self.asks(text)
        elif word == "answers":
            self.answers(bytes.fromhex(text))
        elif word == "refuses":
            self.ends(f"refused ({text})")
        elif word == "untold":
            self.ends(f"untold ({text})")
            self.untold.append(text)
        else:
            self.ends("strange")
            self.strange.append(text)


@dataclass(frozen=True)
class Start:
    """The folder that a host begins with, if any, and the state of its device."""

    label: str
    state: State
    folder: pathlib.Path | None = None

    def put(self, folder: str | pathlib.Path) -> None:
        shutil.rmtree(folder, ignore_errors=True)
        if self.folder:
            shutil.copytree(self.folder, folder)


def state_of(does: Callable[[str], bytes]) -> State:
    """Returns the state of an open device. `does` performs an operation on it."""
    value = answer_of(READ, does(READ))
    is_started = value != INITIALIZE
    if not is_started:
        does(STARTUP)
        value = answer_of(READ, does(READ))
    count = value[1] if isinstance(value, tuple) else 0
    return State(True, is_started, count > 0 or value == UNWRITTEN, count)


def one_line(fault: object) -> str:
    return str(fault).strip().replace("\n", ", ")


def forked(act: Callable[[], None]) -> int:
    """Calls `act` in a new process, and returns the process number. If `act` raises an exception,
    the process prints it and ends with status 1.
    """
    child = os.fork()
    if child == 0:
        try:
            act()
            os._exit(0)
        finally:
            traceback.print_exc()
            os._exit(1)
    return child


def performed(host: Host, script: Iterable[str], folder: str) -> Iterator[tuple[str, str]]:
    """Makes a host begin, and perform the operations of a script. Yields `asks` and the operation
    before each operation, and `answers` and the response after each answered one.
    """
    for act in (BEGIN, *script):
        yield "asks", act
        if act == BEGIN and host.comes_on:
            yield "asks", POWER
        response = does(host, act, folder)
        if host.answers_all or act not in (BEGIN, POWER):
            yield "answers", response.hex()


class Child:
    """A host in a fork of this process. It reports before and after each operation."""

    def __init__(self, host: Host, folder: str, shim: Failing, tells: int) -> None:
        self.host, self.folder, self.shim, self.tells = host, folder, shim, tells

    def says(self, word: str, text: object = "") -> None:
        os.write(self.tells, f"{word} {text}\n".encode())

    def __enter__(self) -> Self:
        return self

    def __exit__(self, kind: type[BaseException] | None, fault: object, _: object) -> None:
        if kind:
            self.says("strange", f"{kind.__name__}: {one_line(fault)}")

    def asks(self, act: str) -> None:
        self.says("asks", act)
        self.shim.goes_on(True)
        try:
            word, text = "answers", does(self.host, act, self.folder).hex()
        except Refused as fault:
            word, text = "refuses", one_line(fault)
        except OSError as fault:
            word, text = "untold", one_line(fault)
        finally:
            self.shim.goes_on(False)
        self.says(word, text)

    def plays(self, script: Sequence[str]) -> None:
        """Performs the operations, even if some are refused. Begins again until the host is open."""
        before = len(os.listdir("/proc/self/fd"))
        for act in (BEGIN, *script):
            if not self.host.is_open:
                self.asks(BEGIN)
            if self.host.is_open and act != BEGIN:
                self.asks(act)
        self.host.close()
        left = len(os.listdir("/proc/self/fd")) - before
        if left:
            self.says("strange", f"{left} files are left open")


def seen(files: Files, folder: str) -> State:
    """Returns the state of the device in a folder, as a host without faults reports it."""
    if not os.path.exists(f"{folder}/journal"):
        return NOTHING
    host = Python(files)
    host.begin(folder)
    with contextlib.closing(host):
        return state_of(lambda act: does(host, act, folder))


def wrong_in(files: Files, folder: str, states: Iterable[State]) -> str:
    """Returns what is wrong with the device in a folder, which must be in one of these states."""
    try:
        state = seen(files, folder)
    except Refused as fault:
        return f"it does not open: {fault}"
    return "" if state in states else f"{state} is none of {sorted(states)}"


@dataclass(frozen=True)
class Starts:
    """The three starting points: a device in a folder; a device whose journal is so long that the
    next command restarts the journal; and no device.
    """

    kept: Start
    grown: Start
    new: Start

    @classmethod
    def made(cls, files: Files, room: pathlib.Path) -> Self:
        kept = Start("a kept device", counting(files, room / "kept", 0), room / "kept")
        grown = counting(files, room / "grown", GROWN_BYTES)
        return cls(kept, Start("a grown one", grown, room / "grown"), Start("a new one", NOTHING))


def made(files: Files, folder: pathlib.Path, acts: Iterable[str]) -> list[int]:
    """Makes a device that has performed operations. Returns the sizes of its journal after each."""
    host, sizes = Python(files), []
    for act in itertools.chain((BEGIN,), acts):
        does(host, act, str(folder))
        sizes.append((folder / "journal").stat().st_size)
    host.close()
    return sizes


def counting(files: Files, folder: pathlib.Path, least: int) -> State:
    """Makes a device that has counted to 2, or as far as necessary for its journal to have at
    least `least` bytes. Then adds the beginning of another record.
    """
    journal = folder / "journal"

    def acts() -> Iterator[str]:
        yield from (STARTUP, DEFINE, INCREMENT, INCREMENT, INCREMENT)
        while journal.stat().st_size < least:
            yield INCREMENT

    _, _, _, *sizes = made(files, folder, acts())
    os.truncate(journal, (sizes[-2] + sizes[-1]) // 2)
    (folder / "journal.new").write_bytes(journal.read_bytes()[:100])
    return State(is_there=True, is_started=True, is_defined=True, count=len(sizes) - 1)


class Checked:
    """Runs of a host. If no run is wrong, `check` prints the text `right`."""

    right = "as it was answered"

    @property
    def label(self) -> str:
        return ""

    def runs(self, share: int) -> Iterator[str]:
        """Makes one in every `share` runs. Yields, for each run, a description of what is wrong, or
        an empty string.
        """
        raise NotImplementedError

    def check(self, share: int) -> tuple[int, int]:
        """Makes the runs. Returns the number of runs, and the number of wrong runs."""
        runs, wrongs, prefix = 0, 0, self.label and f"{self.label}: "
        for runs, wrong in enumerate(self.runs(share), 1):
            if wrong:
                wrongs += 1
                said(f"{prefix}{wrong}")
        print(f"{prefix}{'WRONG' if wrongs else self.right}", flush=True)
        return runs, wrongs


@dataclass(frozen=True)
class Case(Checked):
    """A host, its folder and device at the beginning, and the operations that it must do."""

    files: Files
    room: pathlib.Path
    host: type[Host]
    start: Start
    script: Sequence[str]

    @property
    def label(self) -> str:
        return f"{self.host.name}, {self.start.label}"

    @property
    def folder(self) -> str:
        return str(self.room / "state")


@dataclass(frozen=True)
class Sweep(Case):
    """Runs of a host in which each call fails in turn, with the faults `variants`."""

    shim: Failing
    variants = VARIANTS

    def runs(self, share: int) -> Iterator[str]:
        return sweep(self.tries, share, self.variants)

    def tries(self, fault: Fault) -> tuple[str, str]:
        """Makes a run. Returns the call that failed, and a description of what is wrong."""
        self.start.put(self.folder)
        told = Told(Counted([self.start.state]))
        status, words = (self.program if self.host.is_program else self.fork)(fault, told)
        allowed = {WELL, *([FAULT] if words else []), *([KILLED] if fault.act in KILLS else [])}
        if status not in allowed:
            told.strange.append(f"status {status}, and it says {words!r}")
        told.met = self.shim.met()
        wrong = self.wrong(told)
        return told.met, wrong and f"{wrong}: {' '.join(told.acts)}"

    def fork(self, fault: Fault, told: Told) -> tuple[int, str]:
        """Runs the host in a fork of this process. Returns its status."""
        host, (reads, writes) = self.host(self.files), os.pipe()

        def plays() -> None:
            signal.alarm(SECONDS)
            os.close(reads)
            os.dup2(os.open("/dev/null", os.O_WRONLY), 2)
            self.shim.begins(fault, host.part)
            with Child(host, self.folder, self.shim, writes) as child:
                child.plays(self.script)

        child = forked(plays)
        os.close(writes)
        with open(reads, encoding="utf8") as lines:
            for line in lines:
                told.hears(*line.rstrip("\n").split(" ", 1))
        _, status = os.waitpid(child, 0)
        told.ends("killed")
        return os.waitstatus_to_exitcode(status), ""

    def program(self, fault: Fault, told: Told) -> tuple[int, str]:
        """Runs the host as a program. Returns its status and its messages."""
        host, is_refused = self.host(self.files, self.shim.environment(fault)), False
        try:
            for report in performed(host, self.script, self.folder):
                told.hears(*report)
        except Refused:
            is_refused = True
        status, words = host.close()
        if status == WELL and not is_refused:
            told.did()
        told.ends(f"status {status} ({one_line(words)})")
        return status, words

    def wrong(self, told: Told) -> str:
        """Returns what is wrong with the folder or with the reports."""
        wrong = wrong_in(self.files, self.folder, told.counted.states)
        left = {*os.listdir(self.folder)} if os.path.exists(self.folder) else set()
        return f"{wrong}; {sorted(left)} are left" if wrong else "; ".join(told.strange)


def check_all(
    cases: Callable[[Any, pathlib.Path, Failing], Iterable[Checked]],
    hosts: object,
    path: str,
    share: str = "1",
    word: str = "",
    *,
    noun: str = "runs",
) -> NoReturn:
    """Checks the cases that `cases` makes of the hosts, in a temporary folder, with the shim at a
    path. Checks only those whose label contains the word. Ends this program, with status 1 if
    something is wrong.
    """
    runs = wrongs = 0
    with tempfile.TemporaryDirectory() as name:
        room = pathlib.Path(name).resolve()
        for case in cases(hosts, room, Failing(path, room)):
            if word in case.label:
                more, wrong = case.check(int(share))
                runs, wrongs = runs + more, wrongs + wrong
    said(f"{runs} {noun}, {wrongs} wrong")
    sys.exit(wrongs > 0)
