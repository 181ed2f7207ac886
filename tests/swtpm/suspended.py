"""Suspends and resumes devices at random, as swtpm does, and compares them with devices that are
never suspended:

    tools/python.sh tests/swtpm/suspended.py CALLER LIBRARY SHIM FIRST LAST COUNT

CALLER is built from caller.c, LIBRARY is a libtpms.so.0, and SHIM is built from common/host.c. The
scripts with the seeds FIRST to LAST have COUNT commands each. For half of them the Python device
computes the expected responses and state texts. The other half use the completing layer, and the
expected responses are those of a device that is not suspended. A device that is resumed continues
in another process.
"""

import pathlib
import random
import struct
import sys
import tempfile
from typing import Any, Iterator

sys.path.insert(
    0, str(pathlib.Path(__file__).resolve().parents[2] / "clients" / "python" / "tests")
)

from completed_scripts import Scripts  # noqa: E402
from tests.at_random import random_script  # noqa: E402
from tests.common.outputs import repeated  # noqa: E402
from tests.swtpm.called import Called  # noqa: E402
from tpmsim.model import state_text  # noqa: E402
from tpmsim.model.machine import MANUFACTURED  # noqa: E402
from tpmsim.standard import CC, command  # noqa: E402

SUSPENDED, CYCLED = 0.1, 0.005
HEAD_BYTES = 10


class Host:
    """The host's clock and random bytes, which the shim reads."""

    def __init__(self, folder: pathlib.Path) -> None:
        self.path, self.milliseconds, self.random = folder / "host", 10**9, MANUFACTURED
        self.tell()

    def tell(self) -> None:
        seconds, rest = divmod(self.milliseconds, 1000)
        with open(self.path, "r+b" if self.path.exists() else "wb") as file:
            file.write(struct.pack("qq", seconds, rest * 10**6) + self.random)

    def waits(self, elapsed: int, seed: bytes) -> None:
        self.milliseconds, self.random = self.milliseconds + elapsed, repeated(seed)
        self.tell()


class Pair:
    """The devices that play a script in a folder."""

    def __init__(self, words: list[str], folder: str, completes: bool, is_twin: bool) -> None:
        caller, library, shim = words
        self.host = Host(pathlib.Path(folder))
        told = {
            "LD_PRELOAD": shim,
            "HOST": str(self.host.path),
            "TPMSIM_COMPLETE": str(int(completes)),
        }
        self.devices = []
        for name in ("suspended", "twin")[: 1 + is_twin]:
            pathlib.Path(folder, name).mkdir()
            self.devices.append(Called(caller, library, pathlib.Path(folder, name), **told))
        self.tell("on", "MainInit")
        self.resumed = 0

    def tell(self, line: str, name: str) -> None:
        for device in self.devices:
            device.done(line, name)

    def locality(self, number: int) -> None:
        for device in self.devices:
            device.say(f"loc {number}")

    def cycle_power(self) -> None:
        """Power-cycles the devices. Each device continues with its current permanent state,
        because the stored permanent state has an older Clock.
        """
        for device in self.devices:
            device.done("get permanent permanent", "GetState")
            device.say("off")
            device.done("set permanent permanent", "SetState")
            device.on()

    def resume(self, locality: int) -> None:
        self.devices[0].resume()
        self.devices[0].say(f"loc {locality}")
        self.resumed += 1

    def volatile(self) -> bytes:
        """Returns the volatile state that was saved last."""
        return (self.devices[0].folder / "volatile").read_bytes()

    def execute(self, buffer: bytes) -> list[bytes]:
        return [device.execute(buffer).response for device in self.devices]

    def end(self) -> None:
        for device in self.devices:
            device.end()


def of_device(pair: Pair, chance: random.Random, count: int) -> Iterator[list[bytes]]:
    """Yields each response with the Python device's response, and, at each suspension, both state
    texts.
    """
    writer, played = random_script.Writer(chance.randrange(2**32)), 0
    locality, seed, elapsed = 0, b"", 0
    for _ in range(count):
        before = state_text.device_text(writer.device)
        if chance.random() < SUSPENDED:
            pair.resume(locality)
            yield [pair.volatile()[HEAD_BYTES:][: len(before)], before]
        writer.step()
        for event in writer.events[played:]:
            if isinstance(event, bytes):
                pair.host.waits(elapsed, seed)
                elapsed = 0
                yield [*pair.execute(event), writer.played[-1].outcome.response]
                continue
            name, _, word = event.partition(" ")
            if name == "power":
                pair.cycle_power()
            elif name == "loc":
                locality = int(word)
                pair.locality(locality)
            elif name == "wait":
                elapsed = int(word)
            elif name == "entropy":
                seed = bytes.fromhex(word)
        played = len(writer.events)


def of_layer(pair: Pair, chance: random.Random, count: int) -> Iterator[list[bytes]]:
    """Yields each response with the response of a device that is never suspended."""
    scripts, buffer = Scripts(chance), command(CC.Startup, bytes(2))
    for _ in range(count):
        if chance.random() < SUSPENDED:
            pair.resume(0)
        pair.host.waits(chance.randrange(1000), chance.randbytes(7))
        if chance.random() < CYCLED:
            pair.cycle_power()
        responses = pair.execute(buffer)
        scripts.heard(buffer, responses[0])
        yield responses
        buffer = scripts.next()


def main(first: int, last: int, count: int, words: list[str]) -> int:
    resumed = faults = 0
    for seed in range(first, last + 1):
        completes = seed % 2 == 0
        with tempfile.TemporaryDirectory() as folder:
            pair = Pair(words, folder, completes, completes)
            play: Any = of_layer if completes else of_device
            found = [(at, *it) for at, it in enumerate(play(pair, random.Random(seed), count))]
            pair.end()
        differ = [it for it in found if it[1] != it[2]]
        for at, given, wanted in differ[:1]:
            print(f"seed {seed} differs at {at}: {given.hex()}, and not {wanted.hex()}")
        resumed, faults = resumed + pair.resumed, faults + bool(differ)
    commands = (last - first + 1) * count
    print(f"{commands:,} commands, {resumed:,} resumed, {faults} seeds that differ")
    return 1 if faults else 0


if __name__ == "__main__":
    *those, first_seed, last_seed, commands_each = sys.argv[1:]
    sys.exit(main(int(first_seed), int(last_seed), int(commands_each), those))
