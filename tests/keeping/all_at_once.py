"""Hosts of all kinds (programs and modules that keep a device in a folder) use one device, while
some of them are killed at random moments:

    python3 all_at_once.py PROGRAM HOSTS SHIM SECONDS PROCESSES SEED [fills]

LD_PRELOAD has loaded the library of failing.c into this process, and the library makes clocks jump
by up to a day. Each process increments one index of the device, power-cycles the device, opens it
again, and forks. Signals interrupt its system calls all the time. Apart from that, these calls do
not fail. With `fills` the disk of the working folder is sometimes full. At the end the index must
have counted all answered increments, and only requested ones. A process must never read a number
that is less than its own count.
"""

import contextlib
import ctypes
import os
import pathlib
import random
import selectors
import shutil
import signal
import sys
import time
from collections import Counter
from typing import Callable

from tests.common.faults import said
from tests.keeping.counted import answer_of, BEGIN, DEFINE, INCREMENT, INITIALIZE, POWER, READ
from tests.keeping.counted import STARTUP, SUCCESS
from tests.keeping.hosts import does, Files, Host, Module, Python, Refused, Run, Simulator
from tests.keeping.trials import forked, made

FOLDER, FULL, CLONE_NEWPID, SECONDS_TO_END = "state", "full", 0x20000000, 600
INTERRUPT_EACH, KILL_EACH = 0.0007, 0.02

# The reports of a process, each a byte: an increment that was requested, one that was answered with
# SUCCESS or in another way, and a fault.
ASKED, DONE, OTHER, WRONG = b"a", b"d", b"o", b"w"

# The kinds of hosts, in the order in which processes begin, and the probability of a power cycle.
# The first value is for even seeds, with which the journals grow. The second is for odd seeds, with
# which the power is cycled often.
KINDS = ((Module, Python, Run, Module, Python), (Module, Python, Run, Module, Python, Simulator))
CYCLES = 0.0005, 0.02


class Worker:
    """Uses the device with a host in one process, until the time is up."""

    def __init__(self, kind: type[Host], files: Files, tell: int, seed: int, until: float) -> None:
        self.kind, self.files, self.tell, self.until = kind, files, tell, until
        self.choices, self.least, self.has_forked = random.Random(seed), 0, False
        self.cycles = CYCLES[seed % 2]
        self.host = self.made()

    def made(self) -> Host:
        jumps = {"FAILING_CLOCK": "1"} if self.choices.random() < 0.5 else {}
        return self.kind(self.files, jumps)

    def works(self) -> None:
        if not self.kind.is_program:
            ctypes.CDLL(None).failing_jumps(int(self.choices.random() < 0.5))
            signal.signal(signal.SIGALRM, lambda *_: None)
            signal.setitimer(signal.ITIMER_REAL, INTERRUPT_EACH, INTERRUPT_EACH)
        is_open = False
        while time.monotonic() < self.until:
            try:
                if not is_open:
                    self.host = self.made()
                    does(self.host, BEGIN, FOLDER)
                is_open = True
                self.step()
            except Refused as fault:
                if "damaged" in str(fault):
                    self.says_wrong(str(fault))
                is_open = is_open and not self.kind.is_program
                if self.kind.is_program:
                    self.host.close()
                time.sleep(0.001)
        self.host.close()

    def says(self, report: bytes) -> None:
        os.write(self.tell, report)

    def says_wrong(self, words: str) -> None:
        self.says(WRONG)
        said(f"{self.host.name}: {words}")

    def step(self) -> None:
        chance = self.choices.random()
        if chance < 0.8:
            self.counts()
        elif chance < 0.9:
            self.reads()
        elif chance < 0.9 + self.cycles and self.kind is not Module:
            does(self.host, POWER, FOLDER)
        elif chance < 0.95:
            self.host.close()
            self.host = self.made()
            does(self.host, BEGIN, FOLDER)
        elif chance < 0.96 and not self.kind.is_program and not self.has_forked:
            self.forks()

    def counts(self) -> None:
        self.says(ASKED)
        answer = answer_of(INCREMENT, does(self.host, INCREMENT, FOLDER))
        self.says(DONE if answer == SUCCESS else OTHER)
        self.least += answer == SUCCESS
        if answer == INITIALIZE:
            does(self.host, STARTUP, FOLDER)
        elif answer != SUCCESS:
            self.says_wrong(f"an increment is answered {answer}")

    def reads(self) -> None:
        answer = answer_of(READ, does(self.host, READ, FOLDER))
        if answer == INITIALIZE:
            does(self.host, STARTUP, FOLDER)
        elif not isinstance(answer, tuple) or answer[1] < self.least:
            self.says_wrong(f"{answer} is read, where {self.least} were counted")
        else:
            self.least = answer[1]

    def forks(self) -> None:
        """Forks a child that continues with the host. If possible, the child has the process number
        of its parent.
        """
        self.has_forked = True
        ctypes.CDLL(None).unshare(CLONE_NEWPID)
        child = forked(self.goes_on)
        while time.monotonic() < self.until and os.waitpid(child, os.WNOHANG) == (0, 0):
            self.step()

    def goes_on(self) -> None:
        """Continues in a forked child, for a short time."""
        self.until = min(self.until, time.monotonic() + 0.3)
        self.choices = random.Random(self.choices.random())
        signal.setitimer(signal.ITIMER_REAL, INTERRUPT_EACH, INTERRUPT_EACH)
        while time.monotonic() < self.until:
            with contextlib.suppress(Refused):
                self.step()


class Crowd:
    """Processes that use one device at once. `reports` counts their reports, and `pids` has the
    process number of each pipe.
    """

    def __init__(self, make: Callable[[int, int], Worker]) -> None:
        """`make` returns the worker of a process, from the number of the process and its pipe."""
        self.make, self.reports, self.begun = make, Counter[int](), 0
        self.pids, self.chooser = dict[int, int](), selectors.DefaultSelector()

    def count(self, report: bytes) -> int:
        return self.reports[ord(report)]

    @property
    def unknown(self) -> int:
        """Returns the number of increments that were requested and not answered."""
        return self.count(ASKED) - self.count(DONE) - self.count(OTHER)

    def wrong(self, more: int) -> str:
        """Returns what is wrong if the index has counted `more` increments, or an empty string."""
        done = self.count(DONE)
        if not done <= more <= done + self.unknown:
            return f"{more} increments, where {done} were answered, and {self.unknown} not"
        return f"{self.count(WRONG)} faults were reported" if self.count(WRONG) else ""

    def begins(self) -> None:
        """Begins a process in its own process group."""
        reads, writes = os.pipe()

        def works() -> None:
            os.close(reads)
            os.setsid()
            self.make(self.begun, writes).works()

        self.pids[reads] = forked(works)
        os.close(writes)
        self.chooser.register(reads, selectors.EVENT_READ)
        self.begun += 1

    def hears(self, seconds: float) -> int:
        """Reads reports, for at most some seconds. Returns the number of processes that have ended."""
        ended = 0
        for key, _ in self.chooser.select(seconds):
            text = os.read(key.fd, 65536)
            self.reports.update(text)
            if not text:
                self.end(key.fd)
                ended += 1
        return ended

    def end(self, pipe: int) -> None:
        """Kills a process group. Counts a fault if the process has ended with an exception."""
        self.chooser.unregister(pipe)
        os.close(pipe)
        pid = self.pids.pop(pipe)
        kill(pid)
        _, status = os.waitpid(pid, 0)
        self.reports[ord(WRONG)] += os.waitstatus_to_exitcode(status) > 0

    def end_all(self) -> None:
        """Ends the processes that did not end by themselves. Each of them counts as a fault."""
        for pipe, pid in list(self.pids.items()):
            said(f"process {pid} waits for ever")
            self.reports[ord(WRONG)] += 1
            self.end(pipe)


def kill(group: int) -> None:
    """Kills a process group, if it exists."""
    with contextlib.suppress(ProcessLookupError):
        os.killpg(group, signal.SIGKILL)


def plays(
    files: Files, seconds: float, processes: int, seed: int, fills: bool
) -> tuple[Crowd, int]:
    """Runs this many processes at once, for this many seconds. Each process that ends is replaced.
    Returns the processes, and the number of kills.
    """
    choices, until, kills = random.Random(seed), time.monotonic() + seconds, 0

    def worker(number: int, pipe: int) -> Worker:
        kinds = KINDS[seed % 2]
        of_its_own = 2 * random.Random(f"{seed} {number}").randrange(1 << 30) + seed % 2
        return Worker(kinds[number % len(kinds)], files, pipe, of_its_own, until)

    crowd = Crowd(worker)
    for _ in range(processes):
        crowd.begins()
    next_kill = time.monotonic()
    while crowd.pids and time.monotonic() < until + SECONDS_TO_END:
        for _ in range(crowd.hears(0.01)):
            if time.monotonic() < until:
                crowd.begins()
        if next_kill < time.monotonic() < until and crowd.pids:
            next_kill = time.monotonic() + choices.expovariate(1 / KILL_EACH)
            kill(choices.choice(list(crowd.pids.values())))
            kills += 1
            if fills and choices.random() < 0.3:
                fill(choices)
    crowd.end_all()
    return crowd, kills


def fill(choices: random.Random) -> None:
    """Fills the disk, sometimes to its last byte, or frees space on it."""
    full = pathlib.Path(FULL)
    if full.exists():
        full.unlink()
        return
    with contextlib.suppress(OSError), full.open("wb", buffering=0) as file:
        while file.write(bytes(choices.choice([1, 100, 4096]))):
            pass


def value(files: Files) -> int:
    """Returns the value of the index."""
    host = Python(files)
    does(host, BEGIN, FOLDER)
    does(host, STARTUP, FOLDER)
    answer = answer_of(READ, does(host, READ, FOLDER))
    host.close()
    if not isinstance(answer, tuple):
        sys.exit(f"WRONG: the index is gone: {answer}")
    return int(answer[1])


def main() -> None:
    program, folder, _, seconds, processes, seed, *words = sys.argv[1:]
    files = Files.of(program, folder)
    made(files, pathlib.Path(FOLDER), (STARTUP, DEFINE, INCREMENT))
    before = value(files)
    crowd, kills = plays(files, float(seconds), int(processes), int(seed), "fills" in words)
    pathlib.Path(FULL).unlink(missing_ok=True)
    more = value(files) - before
    wrong = crowd.wrong(more)
    said(
        f"{crowd.begun} processes, {kills} killed, {crowd.count(DONE)} increments answered, "
        f"{crowd.unknown} not known, {more} there{wrong and ': '}{wrong}"
    )
    print(
        f"{processes} processes at once: {'WRONG' if wrong else 'all that was answered is there'}"
    )
    shutil.rmtree(FOLDER)
    sys.exit(bool(wrong))


if __name__ == "__main__":
    main()
