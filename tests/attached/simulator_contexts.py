"""Loads contexts of objects after power cycles of tpmsim-simulator:

    tools/python.sh tests/attached/simulator_contexts.py SIMULATOR

The device is in memory, has an image, or is in a folder. Also tests that reproducible runs make the
same contexts, and that no time passes for a device in memory while its power is off.
"""

import time

from tests.attached.simulator import Served
from tests.common.sleeper import Sleeper
from tpmsim.caller import Caller
from tpmsim.device import SimulatorDevice
from tpmsim.device.served import POWER_OFF, POWER_ON

SECONDS, WAIT = 600, 0.3


def connected(served: Served) -> SimulatorDevice:
    return SimulatorDevice(*served.addresses[0], SECONDS)


def contexts(*words: str) -> None:
    print(*(words or ["in memory"]))
    with Served("--complete", *words) as served, connected(served) as device:
        Sleeper(device).sleeps()


def repeated() -> None:
    """With a seed and without time, two runs make the same context; otherwise they do not."""
    for words in (["--seed", "00ff", "--clock", "commands"], ["--clock", "commands"]):
        made = set()
        for _ in range(2):
            with Served("--complete", *words) as served, connected(served) as device:
                made.add(Sleeper(device).context)
        print(*words, "gives", len(made), "contexts")


def power_off() -> None:
    """The device waits before and after its power is switched off. Since power-on, not more time
    may pass for the device than for the host.
    """
    with Served("--complete") as served, connected(served) as device:
        tpm = Caller(device)
        tpm.start_up()
        time.sleep(WAIT)
        device.tell(POWER_OFF)
        time.sleep(WAIT)
        begun = time.monotonic()
        device.tell(POWER_ON)
        tpm.start_up()
        passed = tpm.call("ReadClock").currentTime.time
        most = (time.monotonic() - begun) * 1000
        print("time stands still without power:", passed <= most + 1)


contexts()
contexts("--image", "image")
contexts("--state", "folder")
repeated()
power_off()
