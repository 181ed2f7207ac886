"""Runs two processes of `tpmsim serve` at once. Either they share the socket, and each has its own
image, or they share the image, and each has its own socket. One process continues while the other
waits at one of its calls.
"""

import socket
import time

from tests.common.faults import Act, Fault, Tears
from tests.common.shims import AT_MOST, FILE, SERVE, SOCKET, Room, ended, fail

ROOM = Room("torn")
RANDOM = bytes(512)

# The time that the second process may take, in seconds. It may have to wait for the first process.
A_WHILE = 0.3


class Rival:
    """A process that serves many connections. Before its call number `at`, it waits until the file
    `go` exists. The two rivals share all files except `own`, which is `image` or `socket`.
    """

    def __init__(self, program, name, own, at=0):
        self.calls = ROOM.path / f"{name}.calls"
        words = [f"{name}.{own}" if it == own else it for it in SERVE]
        fault, go = Fault(at, Act.AWAITS), (ROOM.path / "go").resolve()
        self.process = program.begins([*words, "1000"], ROOM.path, fault, self.calls, go)

    @property
    def noted(self):
        return Tears.noted(self.calls) if self.calls.exists() else []

    @property
    def serves(self):
        return "accept4" in self.noted

    def await_that(self, is_so, seconds=AT_MOST):
        """Waits until a condition is true, but at most this many seconds."""
        end = time.monotonic() + seconds
        while not is_so() and time.monotonic() < end:
            time.sleep(0.001)

    def is_settled(self):
        return self.serves or self.process.poll() is not None

    def settle(self, seconds=AT_MOST):
        self.await_that(self.is_settled, seconds)

    def end(self):
        self.process.kill()
        return ended(self.process)


def begin_anew():
    """Empties the folder, and writes only random bytes to it."""
    ROOM.furnish(None, RANDOM)


def begin_beside_left():
    """Empties the folder, and adds random bytes and a socket on which no process listens."""
    begin_anew()
    with socket.socket(socket.AF_UNIX, socket.SOCK_STREAM) as left:
        left.bind(str(ROOM.path / "socket"))


def check_rivals(program, begin, own, wanted, at_most):
    """Makes the first process wait at each of its calls in turn. The second process then has
    `at_most` seconds before the first one continues. Exactly one of the two processes must end, and
    in the expected way. Returns the calls at which the second process had to wait for the first
    one.
    """
    begin()
    alone = Rival(program, "first", own)
    alone.settle()
    alone.end()
    calls, waited = alone.noted, []
    for at in range(1, calls.index("accept4") + 1):
        begin()
        first = Rival(program, "first", own, at)
        first.await_that(lambda: len(first.noted) == at)
        second = Rival(program, "second", own)
        second.settle(at_most)
        if not second.is_settled():
            waited.append(calls[at - 1])
        (ROOM.path / "go").touch()
        for rival in (first, second):
            rival.settle()
        going = [rival for rival in (first, second) if rival.serves]
        endings = [rival.end() for rival in (first, second) if not rival.serves]
        for rival in going:
            rival.end()
        if len(going) != 1 or endings != [wanted]:
            fail(f"a second run while the first one waits at {calls[at - 1]}: {len(going)} go on")
    return waited


def check(program):
    check_rivals(program, begin_beside_left, "image", SOCKET, A_WHILE)
    print("two runs over a socket that was left: one goes on, the other ends with tpmsim: socket")
    waited = check_rivals(program, begin_anew, "socket", FILE, AT_MOST)
    if waited:
        fail(f"a second run on an image waits for the first one at {waited}")
    print("two runs on one image: one goes on, the other ends with tpmsim: file at once")
