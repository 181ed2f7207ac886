#!/usr/bin/env python3
"""Sweeps programs that contain the library: the examples in C, Python, Rust and Go, and programs for
C++ and JavaScript in the READMEs of their packages.

    tools/python.sh tools/interop/sweep_own.py [--only COMMAND].. [--jobs N] [LANGUAGE..]

Each program is linked with a copy of the library whose calls first ask this program, which then
changes the state of the device, or refuses the command itself (inside/asks.c; inside/asks.mjs does
the same to the package for JavaScript). A program runs once unrefused, and once for each refusal
that its commands, or the COMMANDs, could meet. These are faults: a signal, no end, status 0 and the
output of before although a command was refused, and, if the status is 0, a session or an object
that stays loaded. Each fault is a FAILED line, unless ALLOWED has a reason. It installs nothing,
and leaves no files. Needs cc, binutils, and what the LANGUAGEs need: g++, node, cargo, go.
TPMSIM_ARCHIVE names another archive of the library. The status is 1 if a line is FAILED.
"""

from __future__ import annotations

import argparse
import os
import platform
import shutil
import socket
import struct
import subprocess
import sys
import tempfile
import threading
from collections import Counter
from collections.abc import Callable, Iterator
from concurrent.futures import ThreadPoolExecutor
from contextlib import suppress
from pathlib import Path

from tpmsim.device import Device
from tpmsim.device.base import Executed
from tpmsim.device.library import CHECKS
from tpmsim.sweep.findings import Finding, findings_of
from tpmsim.sweep.refusals import FAKED_CHECK, Only, planned, Refusal
from tpmsim.sweep.runs import Ran, ran, Settings
from tpmsim.sweep.tpm import loaded, sessions_in, SweptTpm

FOLDER = Path(__file__).resolve().parent
TOP = FOLDER.parents[1]
ON, ANOTHER_STATE, RESPONSE = 0, 1, 2
NAMES = "disk_key", "encrypted_session", "event_log", "lockout", "rollback_guard"
LEAVES = Finding.LEAVES_SESSION, Finding.LEAVES_OBJECT
SECONDS = 600.0

# Refusals after which a program rightly goes on, by its language and the command.
ALLOWED = {("go", "Shutdown"): "Reset sends TPM2_Shutdown even if the TPM is not started"}

# The program whose sessions last until its device ends.
KEEPS_SESSIONS = "encrypted_session"


# The state text of a new device.
with Device(seed=b"sweep_own.py") as device:
    NEW = bytes(device.snapshot())


class Gone(Exception):
    """The program has ended."""


class Inside:
    """The device inside a program, which asks on a connection before each command. `at` is the
    locality of the command, and `elapsed` the milliseconds before it.
    """

    def __init__(self, connection: socket.socket) -> None:
        self.connection, self.text, self.changed = connection, b"", b""
        self.command, self.random = b"", b""
        self.at, self.completes, self.elapsed = 0, False, 0

    def take(self, size: int) -> bytes:
        found = b""
        while len(found) < size:
            more = self.connection.recv(size - len(found))
            if not more:
                raise Gone
            found += more
        return found

    def taken(self) -> bytes:
        return self.take(int.from_bytes(self.take(4), "little"))

    def ask(self) -> None:
        """Reads what the program sends before a command."""
        self.text, self.command = self.taken(), self.taken()
        self.at, self.completes, self.elapsed = struct.unpack("<BBI", self.take(6))
        self.random, self.changed = self.take(256), b""

    def reply(self, kind: int, given: bytes) -> tuple[bytes, int]:
        """Lets the program go on. Returns the response and the number of the check."""
        self.connection.sendall(struct.pack("<II", kind, len(given)) + given)
        response, check = self.taken(), self.take(1)[0]
        self.text = self.taken()
        return response, check

    def state(self) -> bytes:
        return self.text

    def restore(self, text: bytes) -> None:
        self.text = self.changed = text

    def drawn(self) -> bytes:
        return self.random

    def answer(self, buffer: bytes, locality: int, elapsed: int, random: bytes) -> Executed:
        kind = ANOTHER_STATE if self.changed else ON
        response, check = self.reply(kind, self.changed)
        number = int.from_bytes(buffer[6:10], "big")
        return Executed(buffer, response, locality, elapsed, b"", CHECKS[check], number)

    def close(self) -> None:
        self.connection.close()


class AskedTpm(SweptTpm):
    """The TPM of one run, whose device is inside the program."""

    def __init__(self, refusal: Refusal | None) -> None:
        super().__init__(NEW, refusal, refusal is None)
        self.device.close()  # the base class made a device of its own
        self.loaded_first = frozenset[int]()
        self.listener = socket.socket(socket.AF_UNIX)

    def elapsed(self) -> int:
        return self.device.elapsed

    def serve(self) -> None:
        """Answers a program's questions until it ends."""
        try:
            connection, _ = self.listener.accept()
        except OSError:
            return  # the program did not ask
        self.device = Inside(connection)
        with connection, suppress(Gone, ConnectionResetError, BrokenPipeError):
            while True:
                self.device.ask()
                count = len(self.sent)
                response = self.execute(self.device.command, self.device.at)
                if self.sent[count].met.check == FAKED_CHECK:
                    self.device.reply(RESPONSE, response)

    def left(self) -> frozenset[int]:
        return loaded(self.device.text) - self.placed if self.sent else frozenset()


def run(settings: Settings, refusal: Refusal | None = None) -> Ran:
    """Runs a program once, with at most one refusal."""
    tpm = AskedTpm(refusal)
    with tempfile.TemporaryDirectory(prefix="tpmsim-") as folder:
        path = os.path.join(folder, "asked")
        tpm.listener.bind(path)
        tpm.listener.listen()
        thread = threading.Thread(target=tpm.serve)
        thread.start()
        status, hangs, seconds, texts = ran(settings, {"TPMSIM_ASKED": path})
        tpm.listener.shutdown(socket.SHUT_RDWR)
        tpm.listener.close()
        thread.join()
    is_met = refusal is None or tpm.met is not None
    trouble = tpm.trouble or ("" if is_met else "the program did not send this command")
    return Ran(status, *texts, seconds, hangs, tuple(tpm.sent), tpm.left(), trouble, tpm.events)


def faults_of(it: Ran, base: Ran, refusal: Refusal) -> list[Finding]:
    """Returns the faults of a run. A program that prints the refusal and goes on is right, and so
    is one that expects a refusal here, and one that ends and takes its device with it.
    """
    found = findings_of(it, base, refusal)
    is_told = (it.output, it.errors) != (base.output, base.errors)
    if is_told or base.sent[refusal.at].met.is_refusal:
        found = [one for one in found if one not in (Finding.SUCCEEDS, Finding.GOES_ON)]
    return [one for one in found if one not in LEAVES or it.status == 0]


def sweep(language: str, words: tuple[str, ...], only: list[Only], jobs: int) -> Iterator[str]:
    """Sweeps a program, and yields its faults."""
    settings = Settings(words, b"", SECONDS)
    base = run(settings)
    if base.status or not base.sent:
        yield f"not swept: status {base.status}: {base.errors.decode()[-300:]}"
        return
    if sessions_in(base.left) and Path(words[-1]).stem != KEEPS_SESSIONS:
        yield "unrefused: leaves a session loaded"
    refusals = planned(base.events, only, None)
    refusals = [it for it in refusals if (language, it.name) not in ALLOWED]
    found = Counter[str]()
    with ThreadPoolExecutor(jobs) as pool:
        for refusal, it in zip(refusals, pool.map(lambda one: run(settings, one), refusals)):
            row = f"{refusal.name} {refusal.met.check} {refusal.code_name}"
            found.update(f"{row}: {fault.value}" for fault in faults_of(it, base, refusal))
    print(f"{len(refusals)} runs: {language} {Path(words[-1]).stem}", file=sys.stderr, flush=True)
    yield from (f"{it} ({count})" for it, count in found.items())


def archive() -> Path:
    """Returns the archive of the library."""
    machine = "aarch64" if platform.machine() == "aarch64" else ""
    return Path(os.environ.get("TPMSIM_ARCHIVE") or TOP / "dist" / machine / "libtpmsim.a")


def do(*words: object, cwd: Path | None = None) -> None:
    """Runs a program, which must succeed."""
    subprocess.run([str(it) for it in words], check=True, stdout=subprocess.DEVNULL, cwd=cwd)


def make_library(folder: Path) -> None:
    """Makes the library that asks, as an archive and as a shared library."""
    made, asks = folder / "libtpmsim.a", folder / "asks.o"
    renamed = (f"--redefine-sym=tpmsim_{it}=own_tpmsim_{it}" for it in ("execute", "complete"))
    do("objcopy", *renamed, archive(), made)
    warned = "-std=c11", "-D_DEFAULT_SOURCE", "-Wall", "-Wextra", "-Werror"
    do(
        "cc",
        *warned,
        "-fPIC",
        f"-I{TOP / 'clients' / 'c'}",
        "-c",
        "-o",
        asks,
        FOLDER / "inside" / "asks.c",
    )
    do("ar", "q", made, asks)
    whole = "-Wl,--whole-archive", made, "-Wl,--no-whole-archive"
    do("cc", "-shared", "-o", folder / "libtpmsim.so.0", *whole)


def made_in_c(folder: Path) -> Iterator[tuple[str, ...]]:
    for name in NAMES:
        words = "-std=c11", "-D_DEFAULT_SOURCE", f"-I{TOP / 'clients' / 'c'}"
        do(
            "cc",
            *words,
            "-o",
            folder / name,
            TOP / "examples" / "c" / f"{name}.c",
            folder / "libtpmsim.a",
        )
        yield (str(folder / name),)


def made_in_cpp(folder: Path) -> Iterator[tuple[str, ...]]:
    """Compiles the program in the README of the package for C and C++."""
    include = TOP / "clients" / "c"
    text = (include / "README.md").read_text("utf-8")
    source, program = folder / "readme.cpp", folder / "readme"
    source.write_text(text.partition("```cpp\n")[2].partition("```\n")[0], "utf-8")
    do("g++", "-std=c++17", f"-I{include}", "-o", program, source, folder / "libtpmsim.a")
    yield (str(program),)


def made_in_js(folder: Path) -> Iterator[tuple[str, ...]]:
    """Writes those programs in the README of the package for JavaScript that expect the device to
    accept a command.
    """
    package = copied("js", folder)
    shutil.copy(TOP / "dist" / "tpmsim.wasm", package)
    os.environ["TPMSIM_PACKAGE"] = str(package)
    _, *rest = (package / "README.md").read_text("utf-8").split("```js\n")
    for place, text in enumerate(rest, 1):
        program, text = package / f"readme{place}.mjs", text.partition("```\n")[0]
        program.write_text(text, "utf-8")
        if ".accepted(" in text:
            yield "node", "--import", str(FOLDER / "inside" / "asks.mjs"), str(program)


def made_in_python(folder: Path) -> Iterator[tuple[str, ...]]:
    os.environ["TPMSIM_LIBRARY"] = str(folder / "libtpmsim.so.0")
    for name in NAMES:
        yield sys.executable, str(TOP / "examples" / "python" / f"{name}.py")


def copied(package: str, folder: Path) -> Path:
    """Copies a package without what was built in it."""
    ignored = shutil.ignore_patterns("target", "Cargo.lock")
    return Path(shutil.copytree(TOP / "clients" / package, folder / package, ignore=ignored))


def made_in_rust(folder: Path) -> Iterator[tuple[str, ...]]:
    os.environ["TPMSIM_LIB_DIR"] = str(folder)
    do(
        "cargo",
        "build",
        "--quiet",
        "--offline",
        "--examples",
        "--target-dir",
        folder / "target",
        cwd=copied("rust", folder),
    )
    for name in NAMES:
        yield (str(folder / "target" / "debug" / "examples" / name),)


def made_in_go(folder: Path) -> Iterator[tuple[str, ...]]:
    flags = {"CGO_CFLAGS": f"-I{TOP / 'clients' / 'c'}", "CGO_LDFLAGS": f"-L{folder}"}
    os.environ.update(flags, CGO_ENABLED="1", GOFLAGS="-buildvcs=false -modcacherw")
    os.environ.update(GOPROXY="off", GOSUMDB="off", GOPATH=str(folder / "path"))
    os.environ.setdefault("GOCACHE", str(folder / "cache"))
    do("go", "build", "-o", f"{folder / 'built'}/", "./examples/...", cwd=copied("go", folder))
    for name in NAMES:
        yield (str(folder / "built" / name),)


MAKERS: dict[str, Callable[[Path], Iterator[tuple[str, ...]]]] = {
    "c": made_in_c,
    "cpp": made_in_cpp,
    "js": made_in_js,
    "python": made_in_python,
    "rust": made_in_rust,
    "go": made_in_go,
}


def main() -> int:
    words = argparse.ArgumentParser(description=__doc__)
    words.add_argument("--only", action="append", default=[], type=Only.of, metavar="COMMAND")
    words.add_argument("--jobs", type=int, default=2)
    words.add_argument("languages", nargs="*", metavar="LANGUAGE", choices=[[], *MAKERS])
    given = words.parse_args()
    failed = 0
    with tempfile.TemporaryDirectory(prefix="tpmsim-") as name:
        make_library(Path(name))
        for language in given.languages or MAKERS:
            for program in MAKERS[language](Path(name)):
                for fault in sweep(language, program, given.only, given.jobs):
                    print(f"FAILED: {language} {Path(program[-1]).stem}: {fault}", flush=True)
                    failed += 1
    print(f"{failed} failed")
    return 1 if failed else 0


if __name__ == "__main__":
    sys.exit(main())
