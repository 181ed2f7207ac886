"""Connects more clients to tpmsim-simulator than it has file descriptors for:

    tools/python.sh tests/attached/simulator_clients.py SIMULATOR

The server may open only a few files. Clients that send nothing use up all its descriptors. The
server must still serve its earlier clients, and save their changes in the image. It must refuse the
extra clients. After other clients have ended, it must serve new ones.
"""

import pathlib
import resource
import select
import socket
import time

from tests.attached.simulator import Served
from tpmsim.caller import area, Caller
from tpmsim.device import SimulatorDevice
from tpmsim.device.base import DeviceEnded

FILES, IDLE, SECONDS = 40, 100, 600
IMAGE = pathlib.Path("image")


def limit():
    resource.setrlimit(resource.RLIMIT_NOFILE, (FILES, FILES))


def refused(idle):
    """Returns the number of clients whose connections the server has closed without an answer. It
    must close the connections of all but FILES clients.
    """
    until, closed = time.monotonic() + SECONDS, []
    while len(closed) < len(idle) - FILES and time.monotonic() < until:
        closed = select.select(idle, (), (), 0.05)[0]
    return len(closed)


def changes(tpm, index):
    """Defines an index, and returns whether this has changed the server's image."""
    before = IMAGE.read_bytes()
    tpm.define(area(index=index))
    return IMAGE.read_bytes() != before


def said(act):
    """Calls `act`. Returns its result, or a description of the exception that it raised."""
    try:
        return act()
    except (DeviceEnded, OSError) as fault:
        return f"{type(fault).__name__}: {fault}"


def connected(address):
    """Tries to connect a new client until the server accepts it. Returns the number of random bytes
    that the client then gets.
    """
    until = time.monotonic() + SECONDS
    while True:
        try:
            with SimulatorDevice(*address, SECONDS) as device:
                return len(Caller(device).call("GetRandom", bytesRequested=8)["randomBytes"])
        except (DeviceEnded, OSError):
            if time.monotonic() > until:
                return "none"


with Served("--image", IMAGE, begins=limit) as served:
    host, port = served.addresses[0]
    with SimulatorDevice(host, port, SECONDS) as device:
        tpm = Caller(device)
        tpm.start_up()
        idle = [socket.create_connection((host, port + i % 2), SECONDS) for i in range(IDLE)]
        print("some are refused, and some are not:", IDLE - FILES <= refused(idle) < IDLE)
        print("a change of the first client:", said(lambda: changes(tpm, 0x0100_0001)))
        print("another change:", said(lambda: changes(tpm, 0x0100_0002)))
        for client in idle:
            client.close()
        print("a new client's bytes:", connected((host, port)))
    print("status", served.end())
