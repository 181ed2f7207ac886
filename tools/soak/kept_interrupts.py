"""Interrupts the calls of devices that Python keeps in a folder, and checks that no device is lost:

    tools/python.sh tools/soak/kept_interrupts.py 200      200 folders, with seed 1: about two minutes
    tools/python.sh tools/soak/kept_interrupts.py 200 7    the same with seed 7

In each folder three processes use one device for half a second. They increment an NV index,
power-cycle the device, and open it again. Meanwhile KeyboardInterrupt is raised in them: in every
second folder by a timer, up to three times during a call; in the other folders by a tracer, at a
random line. Then the folder is opened. A device counts as lost in these cases: opening fails; the
value of the index is less than the number of answered increments, or greater than the number of
requested ones; or a process reports damage or waits forever. The last line contains the totals. The
status is 1 if a device is lost.
"""

import contextlib
import pathlib
import random
import signal
import sys
import tempfile
import time
from collections import Counter

import tpmsim.device
from tests.common.interrupts import interrupting
from tests.keeping.all_at_once import Crowd, DONE, FOLDER, value, Worker
from tests.keeping.counted import BEGIN, DEFINE, INCREMENT, POWER, STARTUP
from tests.keeping.hosts import does, Files, Python, Refused
from tests.keeping.trials import made
from tpmsim.device import BadImage, DeviceEnded, KeptDevice

PROCESSES, SECONDS, SECONDS_TO_END = 3, 0.5, 20
PACKAGE = str(pathlib.Path(tpmsim.device.__file__).parent)
MOST_INTERRUPTS, MOST_LINES, DELAYS = 3, 40, (3e-5, 5e-4)
NO_FILES = Files()

# Further reports of a process: a call, and an interrupt.
CALL, INTERRUPT = b"c", b"i"


class Interrupted(Python):
    """The Python host. KeyboardInterrupt is raised during its calls: by a tracer, or at most `left`
    times by a timer. Between the last line of a call and the line that disables the interrupts no
    function is called, so that no signal handler runs there.
    """

    def __init__(self, worker, is_traced):
        super().__init__(NO_FILES)
        self.worker, self.choices, self.is_traced, self.left = worker, worker.choices, is_traced, 0
        if not is_traced:
            signal.signal(signal.SIGALRM, self.alarmed)

    def alarmed(self, *_):
        if self.left:
            self.left -= 1
            self.worker.says(INTERRUPT)
            raise KeyboardInterrupt

    def during(self, act):
        """Returns the result of a call. Raises Refused if it is interrupted."""
        self.worker.says(CALL)
        try:
            return self.traced(act) if self.is_traced else self.timed(act)
        except KeyboardInterrupt:
            self.left = 0
            raise Refused("interrupted") from None

    def traced(self, act):
        try:
            with interrupting(self.choices.randrange(1, MOST_LINES), PACKAGE):
                return act()
        except KeyboardInterrupt:
            self.worker.says(INTERRUPT)
            raise

    def timed(self, act):
        try:
            signal.setitimer(signal.ITIMER_REAL, *(self.choices.uniform(*DELAYS) for _ in range(2)))
            self.left = self.choices.randrange(MOST_INTERRUPTS + 1)
            return act()
        finally:
            self.left = 0

    def begin(self, folder):
        self.device = self.during(lambda: KeptDevice(folder, forces=False))

    def execute(self, buffer):
        return self.during(lambda: self.device.execute(buffer)).response

    def power(self):
        self.during(self.device.power_cycle)


class Player(Worker):
    """One process that uses the device."""

    def __init__(self, tell, seed, until, is_traced):
        super().__init__(Python, NO_FILES, tell, 0, until)
        self.choices = random.Random(seed)
        self.host = Interrupted(self, is_traced)

    def works(self):
        while time.monotonic() < self.until:
            with contextlib.suppress(Refused):
                self.step()

    def step(self):
        chance = self.choices.random()
        if chance < 0.05:
            self.host.device = None
        if not self.host.is_open:
            does(self.host, BEGIN, FOLDER)
        elif chance < 0.1:
            does(self.host, POWER, FOLDER)
        else:
            self.counts()


def tried(seed):
    """Tests one folder, from a new device to the final comparison. Returns its processes, and a
    description of what is lost, or an empty string.
    """
    made(NO_FILES, pathlib.Path(FOLDER), (STARTUP, DEFINE, INCREMENT))
    before, begun = value(NO_FILES), time.monotonic()
    crowd = Crowd(
        lambda number, pipe: Player(pipe, f"{seed} {number}", begun + SECONDS, seed % 2 == 0)
    )
    for _ in range(PROCESSES):
        crowd.begins()
    while crowd.pids and time.monotonic() < begun + SECONDS_TO_END:
        crowd.hears(0.01)
    crowd.end_all()
    try:
        with KeptDevice(FOLDER) as device:
            device.power_cycle()
        return crowd, crowd.wrong(value(NO_FILES) - before)
    except (BadImage, DeviceEnded, Refused) as fault:
        return crowd, f"{type(fault).__name__}: {fault}"


def main():
    folders, first = (int(it) for it in (*sys.argv[1:], "1")[:2])
    reports, lost = Counter(), 0
    for seed in range(first, first + folders):
        with tempfile.TemporaryDirectory() as folder, contextlib.chdir(folder):
            crowd, wrong = tried(seed)
        if wrong:
            lost += 1
            print(f"seed {seed}: {wrong}", flush=True)
        reports.update(crowd.reports)
    calls, interrupts, answered = (f"{reports[ord(it)]}" for it in (CALL, INTERRUPT, DONE))
    print(f"{folders} folders, {calls} calls, {interrupts} interrupts, ", end="")
    print(f"{answered} increments answered: {lost} devices lost")
    sys.exit(lost > 0)


main()
