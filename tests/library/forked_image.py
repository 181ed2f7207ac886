"""Forks a process that has opened a device from an image. Only the process that opened the image
may write it:

    tools/python.sh forked_image.py LIBRARY

LIBRARY is the shared library. The program runs in an empty folder, and prints a line for each case.
"""

import hashlib
import multiprocessing
import os
import pathlib
import sys
from unittest import mock

os.environ["TPMSIM_LIBRARY"] = sys.argv[1]

from tpmsim.caller import area, Caller
from tpmsim.device import DeviceEnded, LibraryDevice

IMAGE = pathlib.Path("image")


def told(act):
    try:
        act()
    except (DeviceEnded, FileExistsError) as fault:
        return f"{type(fault).__name__}: {fault}"
    return "done"


def image():
    return hashlib.sha256(IMAGE.read_bytes()).hexdigest()


def in_child(device, snapshot):
    """Prints the results of the calls that a forked child makes, and whether they changed the
    image.
    """
    before = image()
    acts = {
        "a command": lambda: device.execute(b""),
        "a change": lambda: Caller(device).define(area(index=0x0100_0009)),
        "the power": device.power_cycle,
        "a snapshot": lambda: device.restore(snapshot),
        "the image by another device": lambda: LibraryDevice(IMAGE),
        "the end": device.close,
    }
    for name, act in acts.items():
        print(f"{name}: {told(act)}; written: {image() != before}", flush=True)


def forks(device, snapshot):
    child = os.fork()
    if not child:
        in_child(device, snapshot)
        os._exit(0)
    os.waitpid(child, 0)


def outlived(device):
    """Checks that a child that outlives the device does not keep the image locked."""
    reads, writes = os.pipe()
    child = os.fork()
    if not child:
        os.close(writes)
        os.read(reads, 1)
        os._exit(0)
    device.close()
    print("while a child lives on:", told(lambda: LibraryDevice(IMAGE).close()))
    os.close(writes)
    os.waitpid(child, 0)


device = LibraryDevice(IMAGE)
Caller(device).start_up()
snapshot = device.snapshot()
print("== a fork", flush=True)
forks(device, snapshot)
print("== one with the number of its parent, as in another namespace", flush=True)
with mock.patch("os.getpid", return_value=os.getpid()):
    forks(device, snapshot)
print("== multiprocessing", flush=True)
process = multiprocessing.get_context("fork").Process(target=in_child, args=(device, snapshot))
process.start()
process.join()
print("== the parent", flush=True)
print("a change:", told(lambda: Caller(device).define(area())), flush=True)
outlived(device)
