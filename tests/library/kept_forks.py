"""Forks a process that has a device in a folder and one with an image file, and interrupts what
Python runs at a fork:

    tools/python.sh kept_forks.py LIBRARY

The program runs in an empty folder, and prints a line for each case. After each fork, each thread
of the parent must be able to use both devices, and to fork. The child must be able to use the
device in the folder, must be refused by the other device, and must have no lock file of its parent.
"""

import fcntl
import os
import pathlib
import select
import signal
import sys
import threading
import time
import warnings

from tests.library.kept import extend, extended, started, value_of
from tpmsim.device import DeviceEnded, KeptDevice, LibraryDevice

PACKAGE = str(pathlib.Path(sys.modules[KeptDevice.__module__].__file__).parent)
FOLDER, IMAGE, FAULT = "state", "image", pathlib.Path("fault")
LOCK = f"{FOLDER}/lock"

# Whoever has not ended after this many seconds waits forever.
SECONDS = 60

# The number of bytecodes that a forked child, or a call, runs at least.
LEAST_BYTECODES = 100

# The children that run at the same time.
AT_ONCE = 16

# The exit statuses of a child.
GOOD, NOT_REACHED, WRONG = 0, 1, 2


class Bytecodes:
    """Calls `act` before the bytecode with this number that the parent or the child runs: in a
    function of the package, or in one that such a function calls. In a loop, only the first
    execution of a bytecode counts.
    """

    def __init__(self, number, act, is_parents):
        self.left, self.act, self.is_parents = number, act, is_parents
        self.parent, self.watched, self.executed = os.getpid(), set(), set()

    def __call__(self, frame, event, _):
        is_called = frame.f_back in self.watched
        if not is_called and not frame.f_code.co_filename.startswith(PACKAGE):
            return None
        self.watched.add(frame)
        frame.f_trace_opcodes = True
        if event == "opcode" and (os.getpid() == self.parent) == self.is_parents:
            self.count(frame)
        return self

    def count(self, frame):
        place = frame.f_code, frame.f_lasti
        if place not in self.executed:
            self.executed.add(place)
            self.left -= 1
            if self.left == 0:
                self.act()

    def during(self, call):
        """Returns the result of a call, in which `act` is called."""
        sys.settrace(self)
        try:
            return call()
        finally:
            sys.settrace(None)


def in_thread(act):
    """Returns the result of `act` in another thread."""
    done = []
    thread = threading.Thread(target=lambda: done.append(act()), daemon=True)
    thread.start()
    thread.join(SECONDS)
    if thread.is_alive():
        raise AssertionError("a thread waits")
    assert done, "a thread failed"
    return done[0]


def ended(child):
    """Returns the exit status of a child."""
    status = os.waitpid(child, 0)[1]
    assert not os.WIFSIGNALED(status), "a child waits"
    return os.waitstatus_to_exitcode(status)


def in_child(act):
    """Ends this forked child with the status that `act` returns, or with WRONG if it fails."""
    signal.signal(signal.SIGALRM, signal.SIG_DFL)  # it ends a call that waits
    signal.alarm(SECONDS)
    status = WRONG
    try:
        status = act()
    except (AssertionError, DeviceEnded, OSError, ValueError) as fault:
        FAULT.write_text(f"in the child: {type(fault).__name__} {fault}")
    finally:
        os._exit(status)


def lock_files():
    """Returns the lock files that this process has open."""
    links = []
    for it in os.listdir("/proc/self/fd"):
        if os.path.exists(f"/proc/self/fd/{it}"):
            links.append(os.readlink(f"/proc/self/fd/{it}"))
    return [it for it in links if it.endswith("lock")]


class Devices:
    """The two devices, and the number of commands that they have executed."""

    def __init__(self):
        self.kept, self.other = started(FOLDER), LibraryDevice(IMAGE)
        self.before, self.count = value_of(self.kept), 0

    def use(self, count=1):
        """Extends the PCR of the device in the folder; returns GOOD."""
        for _ in range(count):
            extend(self.kept)
        return GOOD

    def in_child(self):
        """Uses the devices in a child."""
        assert not lock_files(), lock_files()
        try:
            self.other.execute(b"")
            return WRONG
        except DeviceEnded:
            pass
        return self.use()

    def forked(self):
        """Forks a child that uses the device, and returns its exit status."""
        child = os.fork()
        if not child:
            in_child(self.use)
        return ended(child)

    def in_parent(self):
        """Uses the devices after a fork, in this thread and in another one, and forks again."""
        assert in_thread(self.use) == self.use() == GOOD
        assert in_thread(lambda: self.other.execute(b"").check) == "G1"
        assert in_thread(self.forked) == GOOD, "a child of a thread failed"
        self.count += 3

    def begun(self, trace):
        """Forks a child, which a bytecode may interrupt, and returns its number."""
        child = trace.during(os.fork)
        if not child:
            in_child(lambda: self.in_child() or (trace.left > 0 and NOT_REACHED))
        self.count += 1
        return child

    def interrupted_parent(self, number, act):
        """Interrupts a fork at a bytecode of the parent. Returns whether it was reached."""
        trace = Bytecodes(number, act, True)
        assert ended(self.begun(trace)) != WRONG, FAULT.read_text()
        self.in_parent()
        return trace.left <= 0

    def interrupted_children(self, number, act):
        """Interrupts forks at the next bytecodes of children. Returns whether all were reached."""
        numbers = range(number, number + AT_ONCE)
        statuses = [ended(it) for it in [self.begun(Bytecodes(it, act, False)) for it in numbers]]
        assert WRONG not in statuses, FAULT.read_text()
        return NOT_REACHED not in statuses

    def in_parents(self, act):
        """Interrupts forks at each bytecode of the parent. Returns the result."""
        number = 1
        try:
            while self.interrupted_parent(number, act):
                number += 1
        except (AssertionError, DeviceEnded, OSError, ValueError) as fault:
            return f"at bytecode {number}: {type(fault).__name__} {fault}"
        return f"whole at each of {number - 1} bytecodes"

    def in_children(self, act):
        """Interrupts forks at each bytecode of the child. Returns the result."""
        number = 1
        try:
            while self.interrupted_children(number, act):
                number += AT_ONCE
            assert number > LEAST_BYTECODES, number
            self.in_parent()
        except (AssertionError, DeviceEnded, OSError, ValueError) as fault:
            return f"from bytecode {number} on: {type(fault).__name__} {fault}"
        return "whole at each bytecode"

    def executed(self):
        """Whether the device has executed each command once."""
        value = self.before
        for _ in range(self.count):
            value = extended(value)
        return value == value_of(self.kept)

    def during_a_call(self):
        """Forks while another thread is inside a call, which waits for the folder's lock."""
        with open(LOCK, "rb") as lock:
            fcntl.flock(lock, fcntl.LOCK_EX)
            thread = threading.Thread(target=self.use, daemon=True)
            thread.start()
            await_lock(os.getpid(), "->")
            child = os.fork()
            if not child:
                in_child(lambda: self.in_child() or in_thread(self.use))
            fcntl.flock(lock, fcntl.LOCK_UN)
        thread.join(SECONDS)
        self.count += 1 + 2
        return ended(child) == GOOD and not thread.is_alive()

    def by_a_handler(self):
        """Forks at each bytecode of a call, as a signal handler may. The parent and the child both
        go on with the call, and then use the device again.
        """
        number, children = 1, [1]
        while children:
            children = []
            trace = Bytecodes(number, lambda: children.append(fork_here()), True)
            trace.during(self.use)
            if children == [0]:
                in_child(self.use)
            assert in_thread(self.use) == GOOD
            assert not children or ended(children[0]) == GOOD, FAULT.read_text()
            number += 1
        assert number > LEAST_BYTECODES, number
        self.before, self.count = value_of(self.kept), 0
        return True

    def killed(self):
        """Kills a process while it holds the lock. Its child, which it forked while another of its
        threads was inside a call, must be able to use the device.
        """
        (heard, says), (waits, goes) = os.pipe(), os.pipe()
        with open(LOCK, "rb") as lock:
            fcntl.flock(lock, fcntl.LOCK_EX)
            process = os.fork()
            if not process:
                self.calls_and_forks(says, waits)
            os.read(heard, 1)
            fcntl.flock(lock, fcntl.LOCK_UN)
        stopped_in_call(process)
        os.kill(process, signal.SIGKILL)
        os.waitpid(process, 0)
        os.write(goes, b"g")
        is_used = bool(select.select([heard], [], [], SECONDS)[0])
        return is_used and in_thread(self.use) == GOOD

    def calls_and_forks(self, says, waits):
        """Uses the device without end, and forks a child during the first call."""
        threading.Thread(target=lambda: self.use(10**9), daemon=True).start()
        await_lock(os.getpid(), "->")
        if not os.fork():
            in_child(lambda: os.read(waits, 1) and self.use() or os.write(says, b"u"))
        os.write(says, b"f")
        signal.pause()


def fork_here():
    sys.settrace(None)
    return os.fork()


def has_lock(process, kind):
    """Whether a process holds a lock or, with the kind `->`, waits for one."""
    lines = [it.split() for it in pathlib.Path("/proc/locks").read_text().splitlines()]
    return any(it[1] == kind and str(process) in it for it in lines)


def await_lock(process, kind):
    while not has_lock(process, kind):
        time.sleep(0.001)


def stopped_in_call(process):
    """Stops a process while it holds the lock."""
    while True:
        os.kill(process, signal.SIGSTOP)
        os.waitpid(process, os.WUNTRACED)
        if has_lock(process, "FLOCK"):
            return
        os.kill(process, signal.SIGCONT)


def interrupt():
    raise KeyboardInterrupt


def open_another():
    """Opens another device in another thread."""
    sys.settrace(None)
    in_thread(lambda: OPENED.append(KeptDevice(FOLDER)))


OPENED, faults = [], []
sys.unraisablehook = lambda fault: faults.append(type(fault.exc_value).__name__)
warnings.filterwarnings("ignore", "This process .* is multi-threaded", DeprecationWarning)
devices = Devices()
print("a handler raises in the parent:", devices.in_parents(interrupt), flush=True)
print("a handler raises in the child:", devices.in_children(interrupt), flush=True)
print("a thread opens a device:", devices.in_parents(open_another), flush=True)
print("a fork during a call:", devices.during_a_call(), flush=True)
print("each command is executed once:", devices.executed(), flush=True)
print("a handler forks:", devices.by_a_handler(), flush=True)
print("a killed parent, and its child:", devices.killed(), flush=True)
print("exceptions that Python ignored:", faults)
