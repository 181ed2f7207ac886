"""Tests tpmsim-simulator: its saved states, its records, reproducible runs, several devices, and
hostile clients:

    tools/python.sh tests/attached/simulator.py SIMULATOR
"""

import contextlib
import pathlib
import random
import signal
import socket
import subprocess
import sys
import tempfile
from typing import Callable

from tpmsim.caller import area, Caller
from tpmsim.device import KeptDevice, SimulatorDevice
from tpmsim.device.base import DeviceEnded
from tpmsim.standard import number

PROGRAM, SECONDS, INDEX = sys.argv[1], 600, 0x0100_0001
AUDIT = pathlib.Path(__file__).parents[2] / "tools" / "audit.py"
SEND_COMMAND, STOP, HASH_START, HASH_DATA, HASH_END = 8, 21, 5, 6, 7
POWER_ON, POWER_OFF, RESET = 1, 2, 17
GET_RANDOM = bytes.fromhex("80010000000c0000017b0010")
LAUNCH = number(HASH_START, 4), number(HASH_DATA, 4) + number(3, 4) + b"abc", number(HASH_END, 4)
# The values of PCR 17 after a dynamic launch with the data "abc". They were computed with sha1sum
# and sha256sum, from zeros and the digest of "abc".
LAUNCHED = [
    "ccd5bd41458de644ac34a2478b58ff819bef5acf",
    "589f9ffed4c477966bfb8d41f37895b08c69047df8f911d6f3b57fbe08faee8d",
]


class Served:
    """A running simulator, and the addresses of its devices. Its process first calls `begins`."""

    def __init__(
        self, *words: object, devices: int = 1, begins: Callable[[], None] | None = None
    ) -> None:
        self.process = subprocess.Popen(
            [PROGRAM, "--port", "0", *map(str, words)],
            stdout=subprocess.PIPE,
            preexec_fn=begins,
            text=True,
        )
        assert self.process.stdout is not None
        lines = [self.process.stdout.readline().split() for _ in range(devices)]
        self.addresses = [(host, int(port)) for host, port in lines]

    def client(self, device: int = 0) -> Caller:
        """Returns a client that has started a device with TPM2_Startup."""
        caller = Caller(SimulatorDevice(*self.addresses[device], SECONDS))
        caller.start_up()
        return caller

    def stream(self, port: int = 0) -> socket.socket:
        host, first = self.addresses[0]
        return socket.create_connection((host, first + port), SECONDS)

    def asks(self, port: int, *requests: bytes) -> bytes:
        """Sends requests on a new connection, ends the connection, and returns the answers."""
        with self.stream(port) as stream:
            stream.sendall(b"".join(requests) + number(20, 4))
            return b"".join(iter(lambda: stream.recv(4096), b""))

    def end(self, number_of_signal: int = signal.SIGTERM) -> int:
        self.process.send_signal(number_of_signal)
        return self.process.wait(SECONDS)

    def __enter__(self) -> "Served":
        return self

    def __exit__(self, *fault: object) -> None:
        self.process.kill()
        self.process.wait(SECONDS)


def drawn(tpm: Caller) -> str:
    return tpm.call("GetRandom", bytesRequested=8)["randomBytes"].hex()


def has_index(tpm: Caller) -> bool:
    handles = tpm.call("GetCapability", capability=1, property=INDEX, propertyCount=1)
    return number(INDEX, 4) in handles["capabilityData"].data


def keeps(*words: object) -> None:
    """Checks that an index that one run defines still exists after SIGTERM and after SIGKILL, and
    that SIGINT and the request STOP end the simulator.
    """
    with Served(*words) as served:
        served.client().define(area(index=INDEX))
        print("ends with", served.end())
    for last in (signal.SIGKILL, signal.SIGINT):
        with Served(*words) as served:
            print("is there:", has_index(served.client()), "ends with", served.end(last))
    with Served(*words) as served:
        print("stops:", served.asks(1, number(STOP, 4)).hex(), served.process.wait(SECONDS))


def refused(*words: str) -> str:
    """Runs a simulator that must not start. Returns its status and its error message."""
    done = subprocess.run([PROGRAM, "--port", "0", *words], capture_output=True, text=True)
    return f"{done.returncode} {done.stderr.strip()}"


def kept_in_an_image() -> None:
    print("an image:")
    keeps("--image", "image")
    with Served("--image", "image"):
        print("a second one:", refused("--image", "image"))
    pathlib.Path("image").write_bytes(b"no image")
    print("no image:", refused("--image", "image"))
    print("stays as it is:", pathlib.Path("image").read_bytes() == b"no image")


def kept_in_a_folder() -> None:
    """Tests a device in a folder that another process uses at the same time."""
    print("a folder:")
    keeps("--state", "folder", "--force", "always", "--keep", "1")
    print("the journal before the power cycle stays:", pathlib.Path("folder/journal.1").exists())
    with Served("--state", "folder") as served, KeptDevice("folder") as device:
        tpm, other = served.client(), Caller(device)
        tpm.call("PCR_Extend", 10, digests=[(0x000B, bytes(32))])
        one, two = (it.send(it.read_pcr(10))["pcrValues"] for it in (tpm, other))
        print("both are one device:", one == two and one != [bytes(20), bytes(32)])


def recorded() -> None:
    """Each period between power-on and power-off has its own journal. The audit must find no
    contradiction in it.
    """
    pathlib.Path("records").mkdir()
    with Served("--record", "records", "--seed", "0b") as served:
        served.client().define(area(index=INDEX))
        served.asks(1, number(RESET, 4))
        served.client()
        served.end()
    for path in sorted(pathlib.Path("records").iterdir()):
        judged = subprocess.run([sys.executable, AUDIT, path], stdout=subprocess.DEVNULL)
        mode = oct(path.stat().st_mode & 0o777)
        print(path.name, mode, "agrees with itself:", judged.returncode == 0)


def repeated() -> None:
    """With a seed, each run draws the same random bytes, but two draws in a run differ. Without a
    seed, all bytes are new.
    """
    for words in (["--seed", "00ff", "--clock", "commands"], []):
        draws = []
        for _ in range(2):
            with Served(*words) as served:
                tpm = served.client()
                draws.append((drawn(tpm), drawn(tpm), tpm.call("ReadClock")["currentTime"].time))
        print(
            words,
            "repeats:",
            draws[0][:2] == draws[1][:2],
            "draws twice:",
            draws[0][0] == draws[0][1],
        )
        if words:
            print("its time stands still:", draws[0][2] == draws[1][2] == 0)


def several() -> None:
    """Each device has its own two ports, state and random bytes."""
    with Served("--devices", 3, "--state", "several", "--seed", "01", devices=3) as served:
        tpms = [served.client(device) for device in range(3)]
        tpms[1].define(area(index=INDEX))
        print("devices:", len(set(served.addresses)), [has_index(it) for it in tpms])
    with Served("--devices", 2, "--seed", "01", devices=2) as served:
        print("draw otherwise:", drawn(served.client(0)) != drawn(served.client(1)))


def launched() -> None:
    with Served() as served:
        tpm = served.client()
        served.asks(0, *LAUNCH)
        values = tpm.send(tpm.read_pcr(17))["pcrValues"]
        print("a launch:", [it.hex() for it in values] == LAUNCHED)
        served.asks(1, number(POWER_OFF, 4))
        off = served.asks(0, number(SEND_COMMAND, 4) + b"\0" + number(12, 4) + GET_RANDOM)
        print("without power:", off.hex())


def launched_early() -> None:
    """A launch before TPM2_Startup, which the device refuses, is answered and changes no PCR."""
    with Served() as served:
        served.asks(1, number(POWER_ON, 4))
        told = served.asks(0, *LAUNCH)
        tpm = served.client()
        values = tpm.send(tpm.read_pcr(17))["pcrValues"]
        unchanged = values == [b"\xff" * 20, b"\xff" * 32]
        print("a launch before TPM2_Startup:", told.hex(), "changes nothing:", unchanged)


def hostile() -> None:
    """Clients that send random bytes, in pieces or truncated, do not disturb another client."""
    draw = random.Random(7)
    with Served() as served, contextlib.ExitStack() as held:
        tpm = served.client()
        for _ in range(300):
            stream = held.enter_context(served.stream(draw.randrange(2)))
            text = draw.choice((draw.randbytes(draw.randrange(64)), number(8, 4) + bytes(9000)))
            stop = number(STOP, 4)
            with contextlib.suppress(OSError):
                stream.sendall(text.replace(stop, bytes(4))[: draw.randrange(len(text) + 1)])
            if draw.randrange(2):
                stream.close()
        print("still answers:", len(drawn(tpm)))
        # The random requests may have turned the device off.
        print("serves on:", served.asks(1, number(POWER_ON, 4)).hex(), served.process.poll())


def main() -> None:
    with tempfile.TemporaryDirectory() as folder, contextlib.chdir(folder):
        for act in (
            kept_in_an_image,
            kept_in_a_folder,
            recorded,
            repeated,
            several,
            launched,
            launched_early,
            hostile,
        ):
            try:
                act()
            except (DeviceEnded, OSError) as fault:
                print(f"{act.__name__}: {type(fault).__name__}: {fault}")


if __name__ == "__main__":
    main()
