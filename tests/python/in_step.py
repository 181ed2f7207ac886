"""Interrupts calls that send a command to a device at the other end of a connection:

    tools/python.sh tests/python/in_step.py PROGRAM

Each call is interrupted at each line of Python that it executes. One command is answered too late.
Afterwards no command may get the response to another one: the connection is closed, and the caller
gets DeviceEnded. The device ChildDevice runs PROGRAM.
"""

import os
import pathlib
import signal
import socketserver
import sys
import threading
import time

import tpmsim.device
from tpmsim.device import ChildDevice, DeviceEnded, FileDevice, ServedDevice, SimulatorDevice
from tpmsim.device import SwtpmDevice
from tpmsim.standard import number
from tests.common.interrupts import interrupted

PACKAGE = str(pathlib.Path(tpmsim.device.__file__).parent)
FIRST, SECOND, LATE = 8, 16, 24
SECONDS, MOST_SECONDS, LEAST_LINES = 0.1, 600, 10

# `coming` contains the function that is called when the command LATE arrives. LATE is answered when
# `is_over` is set.
coming, is_over = [lambda: None], threading.Event()

# The number of bytes that follow a request on swtpm's control channel. The keys are the numbers of
# the requests. No bytes follow the other requests.
ARGUMENTS = {2: 4, 5: 1}
SESSION_END, INITIALIZE = 20, number(0x100, 4)


def asking(count):
    """Returns a TPM2_GetRandom command for `count` bytes."""
    return bytes.fromhex("80010000000c0000017b") + number(count, 2)


def answer_to(command):
    """Returns the response with the requested number of bytes. If the command is LATE, first waits
    for `is_over`.
    """
    count = int.from_bytes(command[10:12], "big")
    if count == LATE:
        coming[0]()
        is_over.wait(MOST_SECONDS)
    return (
        bytes.fromhex("8001") + number(12 + count, 4) + bytes(4) + number(count, 2) + bytes(count)
    )


class Handler(socketserver.StreamRequestHandler):
    def number(self):
        """Reads a number. Raises EOFError if the client has closed the connection."""
        text = self.rfile.read(4)
        if len(text) < 4:
            raise EOFError
        return int.from_bytes(text, "big")

    def handle(self):
        try:
            while True:
                self.wfile.write(self.answered())
        except (EOFError, OSError):
            pass  # the client has closed the connection


class Commands(Handler):
    def answered(self):
        text = self.rfile.read(12)
        if not text:
            raise EOFError
        return answer_to(text)


class Control(Handler):
    def answered(self):
        self.rfile.read(ARGUMENTS.get(self.number(), 0))
        return bytes(4)


class Platform(Handler):
    def answered(self):
        if self.number() == SESSION_END:
            raise EOFError
        return bytes(4)


class Simulated(Handler):
    def answered(self):
        if self.number() == SESSION_END:
            raise EOFError
        self.rfile.read(1)
        answer = answer_to(self.rfile.read(self.number()))
        return number(len(answer), 4) + answer + bytes(4)


class Unix(socketserver.ThreadingUnixStreamServer):
    daemon_threads, request_queue_size = True, 100


class Tcp(socketserver.ThreadingTCPServer):
    daemon_threads, request_queue_size, allow_reuse_address = True, 100, True


def serving(server):
    threading.Thread(target=server.serve_forever, daemon=True).start()
    return server.server_address


def simulated():
    """Serves a simulated TPM on two consecutive ports. Returns the address of the first port."""
    while True:
        commands = Tcp(("127.0.0.1", 0), Simulated)
        host, port = commands.server_address
        try:
            platform = Tcp((host, port + 1), Platform)
        except (OSError, OverflowError):
            commands.server_close()
            continue
        serving(platform)
        return serving(commands)


def told(device, size):
    """After an interrupted command, sends a command for a different number of bytes, and describes
    its response. A FileDevice on a pipe reads back the command that it wrote. A device that was
    power-cycled responds with INITIALIZE.
    """
    try:
        response = device.execute(asking(size)).response
    except DeviceEnded as fault:
        return f"{fault}"
    if response[6:10] == INITIALIZE or response == asking(size) or len(response) == 12 + size:
        return "its own answer"
    return "the answer of another command"


def at_each_line(made, act):
    """Calls `act` once for each line that it executes, and interrupts it at that line. Returns the
    different results.
    """
    said, count = set(), 1
    while True:
        with made() as device:
            if not interrupted(lambda: act(device), count, PACKAGE):
                break
            said.add(told(device, SECOND))
        count += 1
    assert count > LEAST_LINES, count
    return ", or ".join(sorted(said))


def late(made):
    """Returns the result of a command that times out, and those of two commands after the late
    response has arrived.
    """
    is_over.clear()
    with made() as device:
        device.data.socket.settimeout(SECONDS)
        try:
            device.execute(asking(LATE))
        except TimeoutError as fault:
            said = f"{fault}"
        is_over.set()
        time.sleep(SECONDS)
        return f"{said}, {told(device, SECOND)}, {told(device, FIRST)}"


def alarmed(made):
    """Like `late`, but with an exception from a signal handler instead of a timeout."""

    def raise_fault(*_):
        raise LookupError("a test's time")

    signal.signal(signal.SIGALRM, raise_fault)
    is_over.clear()
    coming[0] = lambda: os.kill(os.getpid(), signal.SIGALRM)
    with made() as device:
        try:
            device.execute(asking(LATE))
        except LookupError as fault:
            said = f"{fault}"
        is_over.set()
        coming[0] = lambda: None
        return f"{said}, {told(device, SECOND)}"


def moved(device):
    """Executes a command at another locality. The locality is sent to the device before the
    command.
    """
    device.locality = 3
    device.execute(asking(FIRST))


def execute(device):
    device.execute(asking(FIRST))


def child():
    device = ChildDevice(program=sys.argv[1])
    device.execute(bytes.fromhex("80010000000c000001440000"))
    return device


def closed(made):
    device = made()
    device.close()
    device.close()
    return told(device, FIRST)


def main():
    data, control, pipe = (os.path.abspath(it) for it in ("data", "control", "pipe"))
    serving(Unix(data, Commands))
    serving(Unix(control, Control))
    address = simulated()
    os.mkfifo(pipe)
    ways = {
        "served": lambda: ServedDevice(data),
        "simulator": lambda: SimulatorDevice(*address),
        "swtpm": lambda: SwtpmDevice(data, control),
    }
    for name, made in ways.items():
        print(f"{name}, late: {late(made)}")
        print(f"{name}, a signal: {alarmed(made)}")
        print(f"{name}, interrupted: {at_each_line(made, execute)}")
        print(f"{name}, closed: {closed(made)}")
        if made != ways["served"]:
            print(f"{name}, a locality: {at_each_line(made, moved)}")
            print(f"{name}, the power: {at_each_line(made, lambda device: device.power_cycle())}")
    print("file, interrupted:", at_each_line(lambda: FileDevice(pipe), execute))
    print("file, closed:", closed(lambda: FileDevice(pipe)))
    print("child, interrupted:", at_each_line(child, execute))
    print("child, the power:", at_each_line(child, lambda device: device.power_cycle()))
    print("child, closed:", closed(child))


main()
