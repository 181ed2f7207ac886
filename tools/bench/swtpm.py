"""Measures commands over the socket of swtpm, which runs in turn with its own libtpms, with tpmsim,
and with tpmsim while it writes a record:

    python3 swtpm.py ATTACHED..

ATTACHED is the folder of `hosts/build.sh libtpms`; each named folder is measured. The states are
stored below the current folder. All processes run on one processor, so that no processor has to be
woken, and other work on the machine has little effect. Each figure is the median of seven rounds in
microseconds, followed by the minimum in brackets.
"""

import itertools
import os
import pathlib
import shutil
import socket
import statistics
import subprocess
import sys
import time
from collections.abc import Iterator

ROUNDS, TIMES = 7, 200
RETRY = bytes.fromhex("00000922")
STARTUP = bytes.fromhex("80010000000c000001440000")
INDEX = "01000002"
DEFINITION = bytes.fromhex(
    f"80020000002e0000012a400000010000000940000009000001000000016100 0e {INDEX} 000b0004000400000008"
)
DIGEST = f"{1:064x}"


def writes() -> Iterator[bytes]:
    """Yields TPM2_NV_Write commands of eight bytes, which differ each time."""
    head = f"80020000002c00000137{INDEX}{INDEX}0000000a400000090000010001610008"
    return (bytes.fromhex(f"{head}{number:016x}0000") for number in itertools.count(1))


COMMANDS = {
    "GetRandom(32)": itertools.repeat(bytes.fromhex("80010000000c0000017b0020")),
    "PCR_Read": itertools.repeat(bytes.fromhex("8001000000140000017e00000001000b03000001")),
    "PCR_Extend": itertools.repeat(
        bytes.fromhex(f"80020000004100000182000000100000000940000009000001000000000001000b{DIGEST}")
    ),
    "NV_Write, 8 bytes": writes(),
}


class Tpm:
    def __init__(self, name: str, program: str, environment: dict[str, str]) -> None:
        self.state = pathlib.Path(name).resolve()
        self.state.mkdir()
        path = str(self.state / "socket")
        words = [program, "socket", "--tpm2", "--tpmstate", f"dir={self.state}"]
        words += ["--server", f"type=unixio,path={path}", "--flags", "not-need-init,startup-clear"]
        self.process = subprocess.Popen(words, env={**os.environ, **environment})
        self.client = socket.socket(socket.AF_UNIX)
        while self.client.connect_ex(path):
            time.sleep(0.01)
        self.done(DEFINITION)

    def done(self, buffer: bytes) -> None:
        """Executes a command, which must succeed. Repeats the command if libtpms requests that."""
        code = RETRY
        while code == RETRY:
            self.client.sendall(buffer)
            code = self.client.recv(4096)[6:10]
        if any(code):
            raise SystemExit(f"{buffer.hex()} is answered {code.hex()}")

    def end(self) -> None:
        self.client.close()
        self.process.terminate()
        self.process.wait()
        shutil.rmtree(self.state)


def microseconds(tpm: Tpm, buffer: bytes) -> float:
    start = time.perf_counter_ns()
    tpm.done(buffer)
    return (time.perf_counter_ns() - start) / 1000


def main() -> None:
    os.sched_setaffinity(0, {max(os.sched_getaffinity(0))})
    ours = [str(pathlib.Path(it) / "tpmsim-swtpm") for it in sys.argv[1:]]
    names = ["tpmsim", *(pathlib.Path(it).name for it in sys.argv[2:])]
    pathlib.Path("record").mkdir()
    tpms = [Tpm("libtpms", "swtpm", {})]
    tpms += [Tpm(name, program, {}) for name, program in zip(names, ours)]
    tpms += [Tpm("recorded", ours[0], {"TPMSIM_RECORD": str(pathlib.Path("record").resolve())})]
    print("| us, median (least) | " + " | ".join(tpm.state.name for tpm in tpms) + " |")
    for name, buffers in COMMANDS.items():
        took: list[list[float]] = [[] for _ in tpms]
        for _, (place, tpm) in itertools.product(range(ROUNDS), enumerate(tpms)):
            took[place] += [microseconds(tpm, next(buffers)) for _ in range(TIMES)]
        told = [f"{statistics.median(times):.1f} ({min(times):.1f})" for times in took]
        print(f"| {name} | " + " | ".join(told) + " |")
    for tpm in tpms:
        tpm.end()


main()
