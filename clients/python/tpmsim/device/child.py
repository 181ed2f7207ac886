"""A device in a child process, `tpmsim run`, which is used if the library is missing."""

import os
import pathlib
import shutil
import subprocess
import sys
import tempfile
import time
import weakref

from tpmsim.device.base import BadState, DeviceEnded, Executed, line_in_bytes, Unsupported
from tpmsim.device.in_step import CLOSED, InStep, NOT_ENDED
from tpmsim.device.shipped import shipped
from tpmsim.device.told import Device, Path
from tpmsim.standard import CC

# The beginning of the message that `tpmsim` prints about a file that is not a state text.
NO_STATE_TEXT = "tpmsim: snapshot "


def program_found() -> str:
    """Returns the path of `tpmsim`: the one that $TPMSIM names, the one of this repository, one on
    the path, or the one next to the interpreter, where a wheel installs it. Raises
    FileNotFoundError if none of these exists.
    """
    found = os.environ.get("TPMSIM")
    if not found and os.access(shipped("tpmsim"), os.X_OK):
        found = str(shipped("tpmsim"))
    beside = os.path.join(os.path.dirname(sys.executable), "tpmsim")
    found = found or shutil.which("tpmsim") or shutil.which(beside)
    if not found:
        raise FileNotFoundError("there is no tpmsim: $TPMSIM may name it")
    return found


def remove(folder: str, process: int) -> None:
    """Removes the folder, but only in the process that made it, not in a forked child."""
    if os.getpid() == process:
        shutil.rmtree(folder)


class ChildDevice(InStep, Device):
    """A device in a child process. Without an image it is manufactured with the bytes 00 to ff, and
    its state is in a folder of its own until it is closed. With an image it is the device in that
    file, or a new device with random seeds if the file does not exist. Each change is in the file
    before the response is returned.

    >>> with ChildDevice() as device:
    ...     device.execute(b"").check
    'G1'
    """

    def __init__(
        self, image: Path | None = None, seed: bytes | None = None, program: str | None = None
    ) -> None:
        super().__init__(image, seed)
        self.program, self.told_locality = program or program_found(), 0
        self.folder = tempfile.mkdtemp(prefix="tpmsim-")
        self.removal = weakref.finalize(self, remove, self.folder, os.getpid())
        if self.image is not None and self.image.is_file() and os.access(self.image, os.R_OK):
            self.begun = self.image.read_bytes()
        self.process = self.started()

    def started(self) -> subprocess.Popen[bytes]:
        """Starts the program."""
        words = [self.program, "run", "--trace"]
        if self.image is None:
            words += ["--state", self.within("state")]
        else:
            words += ["--image", os.fspath(self.image), "--entropy", "/dev/urandom"]
        pipes = subprocess.PIPE
        return subprocess.Popen([*words, "-"], stdin=pipes, stdout=pipes, stderr=pipes)

    def within(self, name: str) -> str:
        """Returns a path in the device's own folder."""
        return os.path.join(self.folder, name)

    def begin(self, image: bytes) -> None:
        """Starts the device from an image. If the bytes are not an image, the first command raises
        DeviceEnded.
        """
        self.image = pathlib.Path(self.within("image"))
        self.image.write_bytes(image)
        self.start_anew()

    def start_anew(self) -> None:
        """Ends the process of `tpmsim`, and starts a new one."""
        self.why_closed = NOT_ENDED
        self.end()
        self.told_locality, self.process = 0, self.started()
        self.why_closed = ""

    def say(self, *lines: str) -> None:
        """Writes lines to the standard input of `tpmsim`."""
        assert self.process.stdin is not None
        try:
            self.process.stdin.write("".join(f"{it}\n" for it in lines).encode("ascii"))
            self.process.stdin.flush()
        except BrokenPipeError:
            raise self.ended() from None

    def heard(self) -> str:
        """Returns the next line that `tpmsim` prints."""
        assert self.process.stdout is not None
        text = self.process.stdout.readline()
        if not text.endswith(b"\n"):
            raise self.ended()
        return text.decode("ascii").rstrip("\n")

    def ended(self) -> DeviceEnded:
        """Returns the exception that says how `tpmsim` ended."""
        assert self.process.stderr is not None
        words = self.process.stderr.read().decode("utf-8", "replace").strip()
        return DeviceEnded(f"status {self.process.wait()}: {words}")

    def answer(self, buffer: bytes, locality: int, elapsed: int, random: bytes) -> Executed:
        """Executes a command as one exchange; if it is interrupted, the device is closed."""
        return self.whole(lambda: self.told(buffer, locality, elapsed, random))

    def told(self, buffer: bytes, locality: int, elapsed: int, random: bytes) -> Executed:
        """Sends a command with its settings, and reads its trace and response."""
        before = [f"wait {elapsed}"] if elapsed else []
        if locality != self.told_locality:
            before.append(f"loc {locality}")
        self.say(*before, f"entropy {random.hex()}", line_in_bytes(buffer))
        self.told_locality = locality
        name, _, _, check, _ = self.heard().split(" ")
        response, code = bytes.fromhex(self.heard()), 0 if name == "?" else int(CC[name])
        return Executed(buffer, response, locality, elapsed, random, check, code)

    def cycle(self) -> None:
        """Power-cycles the device as one exchange."""
        self.whole(self.told_power)

    def told_power(self) -> None:
        """Sends the line of a power cycle, and reads the line that confirms it."""
        self.say("power")
        self.heard()

    def save(self) -> bytes:
        """Returns the bytes of the image file. Its clock is that of the last change."""
        if self.image is None:
            raise Unsupported("only a device with an image can be saved")
        return self.image.read_bytes()

    def check_folder(self) -> None:
        """Raises Unsupported for a device with an image, because its random seeds are unknown here."""
        if self.image is not None:
            raise Unsupported("a child's device with an image has no snapshots")

    def state(self) -> bytes:
        self.check_folder()
        if self.why_closed:
            raise DeviceEnded(self.why_closed)
        self.await_journal()
        return self.asked("snapshot", self.within("state"))

    def await_journal(self) -> None:
        """Waits for the journal, which the process creates before it reads a command."""
        while not os.path.exists(self.within("state/journal")):
            if self.process.poll() is not None:
                raise self.ended()
            time.sleep(0.001)

    def resume(self, text: bytes) -> None:
        """Replaces the process with one that continues from the state text."""
        self.check_folder()
        if not self.removal.alive:
            raise DeviceEnded(CLOSED)
        file = pathlib.Path(self.within("text"))
        file.write_bytes(text)
        self.asked("restore", self.within("state"), os.fspath(file))
        self.start_anew()

    def asked(self, *words: str) -> bytes:
        """Runs `tpmsim` with these arguments, and returns what it prints; raises BadState or
        DeviceEnded if it fails.
        """
        done = subprocess.run([self.program, *words], capture_output=True, check=False)
        if not done.returncode:
            return done.stdout
        said = done.stderr.decode("utf-8", "replace").strip()
        if said.startswith(NO_STATE_TEXT):
            raise BadState(said.removeprefix(NO_STATE_TEXT))
        raise DeviceEnded(f"status {done.returncode}: {said}")

    def end(self) -> None:
        """Closes the pipes, and waits until `tpmsim` has ended."""
        for pipe in (self.process.stdin, self.process.stdout, self.process.stderr):
            assert pipe is not None
            try:
                pipe.close()
            except BrokenPipeError:
                pass  # the program had already ended
        self.process.wait()

    def hang_up(self) -> None:
        """Kills the process at once, even during a command; its image file stays complete."""
        self.process.kill()
        self.end()

    def close(self) -> None:
        """Ends the process and waits for it; its image file is then complete, with the clock."""
        self.why_closed = self.why_closed or CLOSED
        self.end()
        self.removal()
