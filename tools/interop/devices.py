"""Devices that tpm2-tools use in tools/interop/day.py: swtpm with its own libtpms, tpmsim through
the module for libtss2, and tpmsim as a server. Each device has its own folder.
"""

from __future__ import annotations

import os
import signal
import socket
import subprocess
import time
from collections.abc import Callable
from pathlib import Path

TOP = Path(__file__).resolve().parent.parent.parent
WAIT_S = 10.0


class NoDevice(Exception):
    """The exception for a device that does not start."""


def wait_for(is_there: Callable[[], bool], program: subprocess.Popen[bytes]) -> None:
    """Waits until a program accepts connections."""
    end = time.monotonic() + WAIT_S
    while not is_there():
        if program.poll() is not None or time.monotonic() > end:
            raise NoDevice(f"{program.args!r} does not start")
        time.sleep(0.02)


def is_listening(port: int) -> bool:
    with socket.socket() as probe:
        return probe.connect_ex(("127.0.0.1", port)) == 0


def two_ports() -> int:
    """Returns the first of two free ports with consecutive numbers."""
    for port in range(24400, 24500, 2):
        if not is_listening(port) and not is_listening(port + 1):
            return port
    raise NoDevice("no port is free")


class Device:
    """A device, and how tpm2-tools connect to it."""

    name = ""
    #: The value of TPM2TOOLS_TCTI.
    tcti = ""
    # Whether the steps flush the objects and sessions that a tool leaves loaded, as a resource
    # manager would do.
    is_flushed = True

    def __init__(self, folder: Path) -> None:
        self.folder = folder
        folder.mkdir()

    def environment(self) -> dict[str, str]:
        return os.environ | {"TPM2TOOLS_TCTI": self.tcti}

    def power(self) -> None:
        """Power-cycles the device."""
        raise NotImplementedError

    def stop(self) -> None:
        """Ends the programs that were started for the device."""


class Module(Device):
    """tpmsim with a device in a folder, through the module for libtss2. The module flushes objects
    and sessions itself.
    """

    name = "tpmsim"
    is_flushed = False

    def __init__(self, folder: Path, made: Path, words: str = "rm") -> None:
        super().__init__(folder)
        self.made = made
        self.tcti = f"tpmsim:state={folder}/state,{words}"

    def environment(self) -> dict[str, str]:
        return super().environment() | {"LD_LIBRARY_PATH": str(self.made)}

    def power(self) -> None:
        subprocess.run([self.made / "tpmsim-power", self.folder / "state"], check=True)


class Swtpm(Device):
    """swtpm with its own libtpms."""

    name = "swtpm"

    def __init__(self, folder: Path) -> None:
        super().__init__(folder)
        (folder / "state").mkdir()
        self.port = two_ports()
        self.tcti = f"swtpm:host=127.0.0.1,port={self.port}"
        words = ["--tpm2", "--tpmstate", f"dir={folder}/state", "--flags", "not-need-init"]
        server, control = f"type=tcp,port={self.port}", f"type=tcp,port={self.port + 1}"
        self.program = subprocess.Popen(["swtpm", "socket", *words, "--server", server, "--ctrl", control])
        wait_for(lambda: is_listening(self.port + 1), self.program)

    def power(self) -> None:
        subprocess.run(["swtpm_ioctl", "--tcp", f"127.0.0.1:{self.port + 1}", "-i"], check=True)

    def stop(self) -> None:
        self.program.terminate()
        self.program.wait()


class Served(Device):
    """tpmsim as a server on a socket, without the completing layer. It is restarted for a power
    cycle.
    """

    name = "served"

    def __init__(self, folder: Path) -> None:
        super().__init__(folder)
        self.socket = folder / "socket"
        self.tcti = f"cmd:socat - UNIX-CONNECT:{self.socket}"
        self.program = self.begin()

    def begin(self) -> subprocess.Popen[bytes]:
        words = [f"--socket={self.socket}", f"--image={self.folder}/image", "--entropy=/dev/urandom"]
        limits = ["--locality", "0", "--connections", "4294967295", "--save-each"]
        program = subprocess.Popen([TOP / "tpmsim", "serve", *words, *limits])
        wait_for(self.socket.is_socket, program)
        return program

    def power(self) -> None:
        self.stop()
        self.socket.unlink(missing_ok=True)
        self.program = self.begin()

    def stop(self) -> None:
        self.program.send_signal(signal.SIGTERM)
        self.program.wait()
