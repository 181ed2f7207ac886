"""Compares a device in a folder, used through the module for libtss2, with swtpm, and prints
tables:

    tools/python.sh tools/bench/attached.py MODULE CLIENT DISK [ROUNDS]

MODULE is the module, CLIENT a program built from attached.c, and DISK a folder on a disk. Each
round measures each TCTI in turn. Figures are the minimum and, in brackets, the median.
"""

import itertools
import os
import socket
import statistics
import subprocess
import sys
import tempfile
import time
from collections.abc import Callable
from contextlib import ExitStack
from dataclasses import dataclass
from functools import partial
from pathlib import Path

ROUNDS = 15
COMMANDS = "getrandom", "pcrread", "extend", "nvwrite"
COUNT = 300
REPLAYED = 10_000
FORCES = "never", "power", "always"
TOOLS = {
    "tpm2_getrandom 16": [["tpm2_getrandom", "-f", "--hex", "16"]],
    "tpm2_pcrread sha256:0,10": [["tpm2_pcrread", "sha256:0,10"]],
    "tpm2_createprimary, tpm2_flushcontext": [
        ["tpm2_createprimary", "-C", "o", "-G", "aes128cfb"],
        ["tpm2_flushcontext", "-t"],
    ],
}


@dataclass
class Swtpm:
    """swtpm on a socket, with its state in a folder."""

    folder: Path
    port: int
    process: subprocess.Popen[bytes] | None = None

    def start(self) -> str:
        """Starts swtpm, and returns libtss2's configuration string for connecting to it."""
        self.folder.mkdir()
        words = ["swtpm", "socket", "--tpm2", "--tpmstate", f"dir={self.folder}"]
        words += ["--server", f"type=tcp,port={self.port}", "--flags", "not-need-init"]
        words += ["--ctrl", f"type=tcp,port={self.port + 1}"]
        self.process = subprocess.Popen(words)
        while True:
            with socket.socket() as client:
                if client.connect_ex(("127.0.0.1", self.port + 1)) == 0:
                    break
            time.sleep(0.05)
        return f"swtpm:host=127.0.0.1,port={self.port}"

    def stop(self) -> None:
        if self.process:
            self.process.terminate()
            self.process.wait()


def run(words: list[str], transport: str) -> None:
    """Runs one of tpm2-tools, which must succeed."""
    environment = os.environ | {"TPM2TOOLS_TCTI": transport}
    nowhere = subprocess.DEVNULL
    subprocess.run(words, env=environment, check=True, stdout=nowhere, stderr=nowhere)


def tool_time(tools: list[list[str]], transport: str) -> list[float]:
    """Runs tools one after another, each in its own process. Returns the elapsed time in
    milliseconds.
    """
    before = time.perf_counter()
    for words in tools:
        run(words, transport)
    return [(time.perf_counter() - before) * 1e3]


def asked(client: str, command: str, count: int, transport: str) -> list[float]:
    """Returns the minimum and the median time of a command in one process, in microseconds."""
    words = [client, transport, command, str(count)]
    output = subprocess.run(words, check=True, capture_output=True, text=True).stdout
    return [float(figure) for figure in output.split()]


def measure_each(
    label: str, ways: dict[str, str], rounds: int, tasks: dict[str, Callable[[str], list[float]]]
) -> None:
    """Prints a table with the time of each task for each TCTI."""
    print(f"\n| {label} | " + " | ".join(ways) + " |")
    print("|---" * (len(ways) + 1) + "|")
    for name, task in tasks.items():
        rows: dict[str, list[float]] = {way: [] for way in ways}
        for way, transport in list(ways.items()) * rounds:
            rows[way] += task(transport)
        told = [f"{min(it):.2f} ({statistics.median(it):.2f})" for it in rows.values()]
        print(f"| {name} | " + " | ".join(told) + " |", flush=True)


def measure_tools(ways: dict[str, str], rounds: int) -> None:
    for way in ways.values():
        run(["tpm2_startup", "-c"], way)
    tasks = {label: partial(tool_time, tools) for label, tools in TOOLS.items()}
    measure_each("milliseconds of a tool, start to end", ways, rounds, tasks)


def measure_commands(client: str, ways: dict[str, str], rounds: int) -> None:
    tasks = {it: partial(asked, client, it, COUNT) for it in COMMANDS}
    measure_each("microseconds of a command in a process that stays", ways, rounds, tasks)


def measure_replay(client: str, module: str, folder: Path) -> None:
    """Measures the time to open a journal of many commands."""
    state = folder / "replay"
    transport = f"{module}:state={state},force=never"
    print()
    for command in "getrandom", "extend":
        asked(client, command, REPLAYED // 2, transport)
    least, median = asked(client, "open", 10, transport)
    size = (state / "journal").stat().st_size
    figures = f"{least / 1e3:.2f} ms ({median / 1e3:.2f})"
    print(f"opening {REPLAYED:,} commands, {size:,} bytes: {figures}")


def measure(module: str, client: str, disk: str, rounds: int = ROUNDS) -> None:
    with ExitStack() as stack:
        ways, folders = dict[str, str](), dict[str, Path]()
        for port, (place, parent) in enumerate({"/dev/shm": "/dev/shm", "a disk": disk}.items()):
            folder = Path(stack.enter_context(tempfile.TemporaryDirectory(dir=parent)))
            server = Swtpm(folder / "swtpm", 25_300 + 2 * port)
            stack.callback(server.stop)
            folders[place], ways[f"swtpm, {place}"] = folder, server.start()
        for (place, folder), force in itertools.product(folders.items(), FORCES):
            ways[f"{force}, {place}"] = f"{module}:state={folder / force},force={force}"
        measure_tools(ways, rounds)
        measure_commands(client, ways | {"in memory": f"{module}:"}, 3)
        measure_replay(client, module, folders["/dev/shm"])


if __name__ == "__main__":
    measure(sys.argv[1], sys.argv[2], sys.argv[3], *map(int, sys.argv[4:5]))
