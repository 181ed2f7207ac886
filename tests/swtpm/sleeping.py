"""Loads contexts of an object after power cycles of a device under libtpms.so.0:

    sleeping.py CALLER LIBRARY

When a guest sleeps, its kernel sends TPM2_Shutdown(STATE). When it wakes, QEMU initializes the TPM,
and the firmware sends TPM2_Startup(STATE).
"""

import pathlib
import sys
import time

from tests.common import layer_commands as layer
from tests.common.sleeper import Sleeper
from tests.swtpm.called import Called
from tpmsim.caller import area
from tpmsim.caller.knowledge import STATE

WAIT = 0.3


class Guest(Called):
    """A device that can be power-cycled. QEMU stops it before it initializes it again."""

    is_stopped = True

    def power_cycle(self) -> None:
        if self.is_stopped:
            self.say("off")
        self.on()


def guest(name: str) -> Guest:
    """Returns a device in a new folder."""
    folder = pathlib.Path(name)
    folder.mkdir()
    device = Guest(*sys.argv[1:], folder, TPMSIM_COMPLETE="1", TPMSIM_RECORD=".")
    device.on()
    return device


def in_one_process() -> None:
    Sleeper(guest("one")).sleeps()


def without_a_stop() -> None:
    device = guest("initialized")
    device.is_stopped = False
    Sleeper(device).sleeps()


def from_volatile_states() -> None:
    """The device moves to another process before it sleeps, and again while it sleeps."""
    sleeper = Sleeper(guest("moved"))
    sleeper.device.resume()
    sleeper.wakes("Resume", STATE)
    sleeper.tpm.call("Shutdown", shutdownType=STATE)
    sleeper.device.resume()
    sleeper.device.power_cycle()
    sleeper.tpm.start_up(STATE)
    print("moved in its sleep:", sleeper.found())


def sequences() -> None:
    sleeper = Sleeper(guest("sequence"))
    handle = sleeper.started(layer.start())
    sleeper.done(layer.update(handle, b"ab"))
    context = sleeper.saved(handle)
    sleeper.restart(STATE, STATE)
    print("a loaded sequence:", sleeper.code(layer.update(handle, b"c")))
    digest = sleeper.done(layer.complete(sleeper.loaded(context), b"c"))
    print("a saved one:", digest[6:][:32].hex())


def from_permanent_states() -> None:
    """The device wakes from its last permanent state, from an older one, and in another process."""
    sleeper = Sleeper(guest("states"))
    device, tpm = sleeper.device, sleeper.tpm
    for words in ("the last one", "an older one", "another process"):
        tpm.call("Shutdown", shutdownType=STATE)
        device.done("get permanent permanent", "GetState")
        if words == "an older one":
            tpm.define(area(0x0100_0001))
            tpm.call("Shutdown", shutdownType=STATE)
        if words == "another process":
            device.end()
            device.begin()
        device.say("off")
        device.done("set permanent permanent", "SetState")
        device.on()
        tpm.start_up(STATE)
        print(f"{words}:", sleeper.found())
        sleeper.context, _ = sleeper.saved_object()


def without_power() -> None:
    """Since power-on, not more time may pass for the device than for the host."""
    sleeper = Sleeper(guest("waiting"))
    device, tpm = sleeper.device, sleeper.tpm
    time.sleep(WAIT)
    tpm.call("Shutdown", shutdownType=STATE)
    device.say("off")
    time.sleep(WAIT)
    begun = time.monotonic()
    device.on()
    tpm.start_up(STATE)
    passed = tpm.call("ReadClock").currentTime.time
    print("no time passes:", passed <= (time.monotonic() - begun) * 1000 + 1)


for act in (
    in_one_process,
    without_a_stop,
    from_volatile_states,
    sequences,
    from_permanent_states,
    without_power,
):
    print(f"{act.__name__.replace('_', ' ')}:")
    act()
