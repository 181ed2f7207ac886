"""Interrupts calls of a device that Python keeps in a folder: at each line that they execute, at
random moments, and while they wait for the lock:

    tools/python.sh kept_interrupts.py LIBRARY

The program prints a line for each call. After each interrupt the device must have executed what its
journal contains, another thread must be able to use it, and no file may be locked or left open. An
interrupted `restore` must leave either the device in the snapshot or the earlier device.
"""

import contextlib
import fcntl
import gc
import linecache
import os
import pathlib
import random
import signal
import sys
import tempfile
import threading
import time

from tests.common.interrupts import interrupting
from tests.library.kept import extend, extended, started, value_of, Waits, within
from tpmsim.caller import Caller
from tpmsim.device import DeviceEnded, KeptDevice

WATCHED = str(pathlib.Path(sys.modules[KeptDevice.__module__].__file__).parent)
SECONDS, LEAST_LINES = 600, 5

# The number of signals that interrupt calls, and their maximum delay after the beginning of a call,
# in seconds.
SIGNALS, MOST_DELAY = 400, 200e-6

# The time for which the lock is held, and the time at which the signal comes, in seconds. The lock
# is released long after the signal.
HELD_SECONDS, SIGNAL_SECONDS = 0.4, 0.1


class Exempt:
    """The lines at which calls are not interrupted: methods __del__, whose exceptions are ignored,
    and the end of a `with`, because no signal handler runs between its body and its end.
    """

    def __init__(self):
        self.entered = set()

    def __call__(self, frame):
        if "__del__" in (frame.f_code.co_name, frame.f_back.f_code.co_name):
            return True
        place = frame, frame.f_lineno
        is_end = place in self.entered
        if linecache.getline(frame.f_code.co_filename, frame.f_lineno).lstrip().startswith("with "):
            self.entered.add(place)
        return is_end


def is_interrupted(act, number, then):
    """Returns whether `act` executes this many lines. If so, `act` is interrupted, and `then`
    checks the state that `act` left, before the exception is discarded together with the objects to
    which it refers.
    """
    try:
        with interrupting(number, WATCHED, Exempt()):
            act()
    except KeyboardInterrupt:
        within(SECONDS, then)
        return True
    return False


def files_open():
    gc.collect()
    return {os.readlink(it.path) for it in os.scandir("/proc/self/fd") if it.is_file()}


def in_thread(act):
    """Returns the result of `act` in another thread. That thread waits forever if the calling
    thread still has the lock.
    """
    done = []
    thread = threading.Thread(target=lambda: done.append(act()), daemon=True)
    thread.start()
    thread.join()
    return done[0]


class Lines:
    """A device, and another holder of its folder. Interrupts an operation at each line that it
    executes.
    """

    def __init__(self, folder):
        self.folder, self.faults = folder, []
        self.device, self.other = started(folder), KeptDevice(folder)
        extend(self.device)
        self.snapshot, self.value = self.device.snapshot(), value_of(self.device)
        self.begun, self.known = 0, ()
        self.acts = {
            "begin": self.begin,
            "open": lambda: KeptDevice(folder).close(),
            "execute": lambda: extend(self.device),
            "catch up and execute": lambda: (extend(self.other), extend(self.device)),
            "power_cycle": self.device.power_cycle,
            "save": self.device.save,
            "snapshot": self.device.snapshot,
            "restore": lambda: self.device.restore(self.snapshot),
        }

    def begin(self):
        """Makes a new device in a folder that does not exist."""
        self.begun += 1
        KeptDevice(self.new).close()

    @property
    def new(self):
        return f"{self.folder}/{self.begun}"

    def then(self):
        """Checks the folder after an interrupt. First uses the other holder, which would wait if
        the lock were still held.
        """
        with contextlib.suppress(Exception):
            Caller(self.other).start_up()
        before = value_of(self.other)
        assert not self.known or before in self.known, "another device"
        if self.begun:
            started(self.new).close()
        extend(self.other)
        extend(self.device)
        assert in_thread(lambda: value_of(self.device)) == extended(extended(before))
        assert value_of(self.other) == extended(extended(before))

    def play(self, name):
        number, before = 1, files_open()
        while True:
            if name == "restore":
                self.known = value_of(self.other), self.value
            try:
                if not is_interrupted(self.acts[name], number, self.then):
                    break
            except (AssertionError, DeviceEnded, OSError, ValueError, Waits) as fault:
                return f"at line {number}: {type(fault).__name__} {fault}"
            number += 1
        assert number > LEAST_LINES, number
        self.device.save(), self.other.save()
        if files_open() > before:
            return f"left open: {files_open() - before}"
        return "whole, wherever it is interrupted"


def at_random(folder):
    """Interrupts calls at random moments. If a call was answered, its command must have been
    executed. If a call was not answered, its command may have been executed.
    """
    device, chance = started(folder), random.Random(1)
    before, counts = value_of(device), [0, 0]

    def raise_interrupt(*_):
        raise KeyboardInterrupt

    waits = signal.signal(signal.SIGALRM, raise_interrupt)
    while counts[0] < SIGNALS:
        is_answered = False
        try:
            signal.setitimer(signal.ITIMER_REAL, chance.uniform(1e-6, MOST_DELAY))
            extend(device)
            is_answered = True
            time.sleep(MOST_DELAY)
        except KeyboardInterrupt:
            counts[is_answered] += 1
        signal.setitimer(signal.ITIMER_REAL, 0)
        value = value_of(device)
        if value != extended(before) and (is_answered or value != before):
            return f"{'an answered' if is_answered else 'another'} command is gone"
        before = value
    signal.signal(signal.SIGALRM, waits)
    with KeptDevice(folder) as other:
        assert in_thread(lambda: value_of(device)) == value_of(other) == before
    device.close()
    return "each command is executed once, or not at all"


def while_it_waits(folder):
    """Interrupts a call while it waits for the lock. The handler must run only after the call has
    executed its command.
    """
    device = started(folder)
    before = value_of(device)
    with open(f"{folder}/lock", "rb") as lock:
        fcntl.flock(lock, fcntl.LOCK_EX)
        timer = threading.Timer(HELD_SECONDS, fcntl.flock, (lock, fcntl.LOCK_UN))
        begun = time.monotonic()
        timer.start()
        with contextlib.suppress(Waits):
            within(SIGNAL_SECONDS, lambda: extend(device))
            return "no handler ran"
        is_late = time.monotonic() - begun >= HELD_SECONDS
        timer.join()
    is_executed = value_of(device) == extended(before)
    device.close()
    return f"the handler runs after the call: {is_late}; it was executed: {is_executed}"


with tempfile.TemporaryDirectory() as folder:
    names = list(Lines(folder).acts)
for name in names:
    with tempfile.TemporaryDirectory() as folder:
        lines = Lines(folder)
        print(f"{name}: {lines.play(name)}", flush=True)
        for device in lines.device, lines.other:
            device.close()
for name, act in ("at random moments", at_random), ("while it waits", while_it_waits):
    with tempfile.TemporaryDirectory() as folder:
        print(f"{name}: {act(folder)}", flush=True)
