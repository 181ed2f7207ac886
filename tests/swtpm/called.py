"""A device in the program built from caller.c, which takes the role of swtpm and calls
libtpms.so.0. The program reads commands as lines, and prints the responses. The device's states
are files in the program's working folder.
"""

import pathlib
import subprocess
from typing import NamedTuple

SECONDS = 600


class Answered(NamedTuple):
    response: bytes
    check: None = None


class Called:
    """A running program built from caller.c, with a library and a working folder. Its environment
    contains only the variables that are passed.
    """

    def __init__(
        self, caller: str, library: str, folder: str | pathlib.Path, **variables: str
    ) -> None:
        self.words, self.variables = [caller, library], variables
        self.folder = pathlib.Path(folder)
        self.begin()

    def begin(self) -> None:
        piped, joined = subprocess.PIPE, subprocess.STDOUT
        self.process = subprocess.Popen(
            self.words,
            cwd=self.folder,
            env=self.variables,
            stdin=piped,
            stdout=piped,
            stderr=joined,
        )

    def say(self, line: str) -> None:
        assert self.process.stdin
        self.process.stdin.write(f"{line}\n".encode())
        self.process.stdin.flush()

    def told(self, line: str, last: str | tuple[str, ...]) -> list[str]:
        """Sends a line. Returns the lines of the answer, up to the first one that begins with
        `last`.
        """
        assert self.process.stdout
        self.say(line)
        said: list[str] = []
        while not said or not said[-1].startswith(last):
            text = self.process.stdout.readline().decode()
            if not text:
                raise EOFError(f"the caller ended after {line}: {said}")
            said.append(text.rstrip("\n"))
        return said

    def number(self, line: str, name: str) -> int:
        """Sends a line. Returns the result of the called function, which is a number."""
        return int(self.told(line, f"{name}: ")[-1].split(": ")[1].split(",")[-1])

    def done(self, line: str, name: str) -> None:
        if self.number(line, name):
            raise ValueError(f"{line} is refused")

    def on(self) -> None:
        self.done("on", "MainInit")

    def execute(self, buffer: bytes) -> Answered:
        said = self.told(f"cmd {buffer.hex()}", ("80", "00c4"))
        return Answered(bytes.fromhex(said[-1]))

    def end(self) -> None:
        assert self.process.stdin and self.process.stdout
        self.process.stdin.close()
        self.process.wait(SECONDS)
        self.process.stdout.close()

    def resume(self) -> None:
        """Saves the device, ends its process, and continues the device in another process."""
        self.done("save volatile", "VolatileAll_Store")
        self.done("get permanent permanent", "GetState")
        self.end()
        self.begin()
        self.done("set permanent permanent", "SetState")
        self.done("set volatile volatile", "SetState")
        self.on()
