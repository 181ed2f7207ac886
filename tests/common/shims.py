"""Runs a program, alone or with a shim. A shim is a library in C that replaces functions of the C
library, and makes some of their calls fail.
"""

import os
import pathlib
import select
import shutil
import socket
import struct
import subprocess
import sys
from dataclasses import dataclass
from typing import Any, Iterable, NoReturn, Self, Sequence

HERE = pathlib.Path(__file__).resolve().parent
AT_MOST = 600
Path = str | pathlib.Path
Process = subprocess.Popen[bytes]
SHOWN = 2000


def serving(entropy: str) -> list[str]:
    """Returns the arguments that serve a device. The number of connections must follow."""
    words = f"serve --socket socket --image image --entropy {entropy} --locality 0 --connections"
    return words.split()


SERVE = serving("entropy")

# Files that any run may leave in its folder.
OWN = {"image", "image.lock", "entropy"}

# The data that is exchanged with turns.h: before a run, the two numbers of the run; after the run,
# its status from waitpid, and whether the shim has marked the run.
TURN, REPORT = struct.Struct("ll"), struct.Struct("ii")


@dataclass(frozen=True)
class Ending:
    """The exit status of a run, and its output."""

    status: int
    output: bytes = b""
    error: bytes = b""


WELL = Ending(0)
FILE, SOCKET = Ending(3, error=b"tpmsim: file\n"), Ending(3, error=b"tpmsim: socket\n")
ENTROPY = Ending(3, error=b"tpmsim: entropy\n")


def fail(words: str) -> NoReturn:
    """Ends the test with a description of the fault, truncated to a readable length."""
    sys.exit(f"WRONG: {words[:SHOWN]}")


def begun(words: Iterable[Any], folder: Path = ".", **environment: object) -> Process:
    """Begins a run in a folder. The keyword arguments are added to its environment."""
    told = {name: str(value) for name, value in environment.items()}
    pipe, environ = subprocess.PIPE, {**os.environ, **told}
    return subprocess.Popen([*words], cwd=folder, env=environ, stdin=pipe, stdout=pipe, stderr=pipe)


def ended(process: Process, stdin: bytes = b"") -> Ending:
    output, error = process.communicate(stdin, timeout=AT_MOST)
    return Ending(process.returncode, output, error)


def end(process: Process, wanted: Ending = WELL, label: str = "a run") -> None:
    """Checks that a run ends as expected."""
    given = ended(process)
    if given != wanted:
        fail(f"{label} ended with {given}, and not {wanted}")


def close(client: socket.socket) -> None:
    """Ends a connection. The program must have sent only the responses that were read."""
    client.shutdown(socket.SHUT_WR)
    if client.recv(1):
        fail("there are more bytes than responses")
    client.close()


def ran(*words: Any, stdin: bytes = b"") -> Ending:
    """Runs a program to its end. Returns its status and output."""
    done = subprocess.run(words, input=stdin, capture_output=True, timeout=AT_MOST, check=False)
    return Ending(done.returncode, done.stdout, done.stderr)


class Room:
    """A folder with the files of a run: its image, if it has one, and its random bytes."""

    def __init__(self, name: str) -> None:
        self.path = pathlib.Path(name)

    def furnish(self, image: bytes | None, entropy: bytes) -> None:
        """Empties the folder, and writes the image and the random bytes. The folder itself is not
        replaced, because processes may already run in it.
        """
        self.path.mkdir(exist_ok=True)
        for path in self.path.iterdir():
            if path.is_dir():
                shutil.rmtree(path)
            else:
                path.unlink()
        if image is not None:
            (self.path / "image").write_bytes(image)
        (self.path / "entropy").write_bytes(entropy)

    @property
    def image(self) -> bytes | None:
        path = self.path / "image"
        return path.read_bytes() if path.exists() else None

    @property
    def left(self) -> tuple[str, ...]:
        """Returns the names of the files that a run has left in the folder, except those in OWN."""
        return tuple(sorted({path.name for path in self.path.iterdir()} - OWN))


class Shim:
    """A program with a shim, which is compiled in a folder."""

    def __init__(self, program: str, name: str, folder: Path = ".") -> None:
        self.program, self.library = program, pathlib.Path(folder, f"{name}.so").resolve()
        words = "cc -std=gnu11 -O1 -fno-builtin -shared -fPIC -o".split()
        subprocess.run([*words, self.library, HERE / f"{name}.c"], check=True)

    def check_calls(self, others: Iterable[str]) -> set[str]:
        """Checks that the program calls none of the functions `others`, which do the same as the
        functions that the shim replaces. Returns the functions that it calls.
        """
        words = ["nm", "-D", "--undefined-only", self.program]
        told = subprocess.run(words, check=True, capture_output=True, text=True).stdout
        called = {line.split()[-1].partition("@")[0] for line in told.splitlines()}
        if called & set(others):
            fail(f"the program calls {', '.join(sorted(called & set(others)))} too")
        return called

    def begun(self, words: Iterable[Any], folder: Path = ".", **told: object) -> Process:
        return begun([self.program, *words], folder, LD_PRELOAD=self.library, **told)


class MemoryFile:
    """A standard stream of several runs. Each run reads or writes it from the start."""

    def __init__(self, name: str) -> None:
        self.name, self.file = name, open(os.memfd_create(name), "w+b", buffering=0)

    def fill(self, content: bytes) -> None:
        self.file.seek(0)
        self.file.truncate()
        if content:
            self.file.write(content)
            self.file.seek(0)

    @property
    def content(self) -> bytes:
        self.file.seek(0)
        return self.file.read()


class Turns:
    """Consecutive runs of a program in a folder, with a shim that includes turns.h. All runs have
    the same arguments, except that the last one may differ.
    """

    def __init__(self, shim: Shim, words: Iterable[str], folder: Path = ".") -> None:
        self.streams = [MemoryFile(name) for name in ("stdin", "stdout", "stderr")]
        self.is_marked = False
        self.socket, theirs = socket.socketpair(socket.AF_UNIX, socket.SOCK_SEQPACKET)
        with theirs:
            number, (stdin, stdout, stderr) = theirs.fileno(), (it.file for it in self.streams)
            self.process = subprocess.Popen(
                [shim.program, *words],
                cwd=folder,
                env={**os.environ, "LD_PRELOAD": str(shim.library), "TURNS": str(number)},
                pass_fds=[number],
                stdin=stdin,
                stdout=stdout,
                stderr=stderr,
            )

    def __enter__(self) -> Self:
        return self

    def __exit__(self, *_: object) -> None:
        self.socket.close()
        self.process.wait()

    def begin(
        self, first: int = 0, second: int = 0, word: bytes | None = None, stdin: bytes = b""
    ) -> None:
        """Begins a run with the two numbers for its shim. If `word` is given, it is the last
        argument.
        """
        for stream, content in zip(self.streams, (stdin, b"", b"")):
            stream.fill(content)
        self.socket.send(TURN.pack(first, second) + (b"" if word is None else word + b"\0"))

    def poll(self) -> Sequence[object] | None:
        """Returns None while the run continues, like the method `poll` of a process."""
        ready, _, _ = select.select([self.socket], [], [], 0)
        return ready or None

    def ended(self) -> Ending:
        told = self.socket.recv(REPORT.size)
        if not told:
            fail("the shim has ended")
        status, is_marked = REPORT.unpack(told)
        self.is_marked = bool(is_marked)
        _, output, error = (stream.content for stream in self.streams)
        return Ending(os.waitstatus_to_exitcode(status), output, error)

    def run(self, first: int = 0, second: int = 0, **told: Any) -> Ending:
        self.begin(first, second, **told)
        return self.ended()
