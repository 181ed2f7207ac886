"""Damages the journals of devices that tpmsim-simulator serves:

    tools/python.sh tests/attached/simulator_failed.py SIMULATOR

The simulator must close all connections to a device with a damaged journal, and serve its other
devices. If no device is left, the simulator must end. The status must be 3.
"""

import pathlib
import socket

from tests.attached.simulator import drawn, Served
from tpmsim.caller import Caller
from tpmsim.device import SimulatorDevice
from tpmsim.device.base import DeviceEnded

FOLDER, SECONDS = pathlib.Path("several"), 600
DAMAGE = b"# damage\n" * 100


def is_closed(stream: socket.socket) -> bool:
    """Returns whether the simulator closes a connection without an answer."""
    stream.settimeout(SECONDS)
    try:
        return stream.recv(1) == b""
    except ConnectionResetError:
        return True


def connected(served: Served, device: int) -> list[socket.socket]:
    """Connects to both ports of a device."""
    host, port = served.addresses[device]
    return [socket.create_connection((host, port + i), SECONDS) for i in range(2)]


def damage(journal: pathlib.Path) -> None:
    with journal.open("ab") as file:
        file.write(DAMAGE)


def answered(tpm: Caller) -> str:
    try:
        return f"{len(drawn(tpm)) // 2} random bytes"
    except (DeviceEnded, ConnectionResetError):
        return "no answer"


def one_of_three() -> None:
    with Served("--devices", 3, "--state", FOLDER, devices=3) as served:
        tpms = [served.client(device) for device in range(3)]
        idle = connected(served, 1)
        damage(FOLDER / "1" / "journal")
        print("each device:", *map(answered, tpms), sep="\n    ")
        print("other clients of device 1 are closed:", *map(is_closed, idle))
        print("new clients of device 1 are closed:", *map(is_closed, connected(served, 1)))
        other = Caller(SimulatorDevice(*served.addresses[0], SECONDS))
        print("a new client of device 0:", answered(other))
        print("status", served.end())


def all_of_two() -> None:
    with Served("--devices", 2, "--state", "two", devices=2) as served:
        tpms = [served.client(device) for device in range(2)]
        for device, tpm in enumerate(tpms):
            damage(pathlib.Path("two", str(device), "journal"))
            print(f"device {device}:", answered(tpm))
        print("status", served.process.wait(SECONDS))


def the_only_one() -> None:
    with Served("--state", "one") as served:
        tpm = served.client()
        damage(pathlib.Path("one", "journal"))
        print("the only device:", answered(tpm))
        print("status", served.process.wait(SECONDS))


for act in (one_of_three, all_of_two, the_only_one):
    act()
