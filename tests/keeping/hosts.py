"""The hosts of a device that is kept in a folder. They perform the operations of counted.py.
`Files` contains their paths.

The hosts Module and Python run in this process, and fork with it. The other hosts are programs,
which get their own environment.
"""

import contextlib
import ctypes
import os
import pathlib
import subprocess
import warnings
from dataclasses import dataclass
from typing import IO, Iterator, Self

from tests.keeping.counted import BEGIN, COMMANDS, POWER
from tpmsim.device import KeptDevice, SimulatorDevice, SwtpmDevice
from tpmsim.device.base import DeviceEnded

SECONDS, RESPONSE_BYTES, RC = 600, 4096, ctypes.c_uint32


@dataclass(frozen=True)
class Files:
    """The paths of the hosts: the program, and a folder with the module and the other programs."""

    program: pathlib.Path = pathlib.Path()
    folder: pathlib.Path = pathlib.Path()

    @classmethod
    def of(cls, program: str, folder: str) -> Self:
        return cls(pathlib.Path(program).resolve(), pathlib.Path(folder).resolve())

    def of_host(self, name: str) -> str:
        """Returns the path of the module, or of a program in the folder."""
        return str(self.folder / name)


class Refused(Exception):
    """Raised when a host reports that it did not perform an operation."""


class Host:
    """A host and its operations. `part` is a part of the name of its library. If `answers_all` is
    false, only the next response shows that the host has begun, or has cycled the power. If
    `comes_on` is true, starting the host powers the device on. `is_program` says whether the host
    is a process of its own.
    """

    name, part, answers_all, comes_on, is_program = "", "", True, False, False

    def __init__(self, files: Files, environment: dict[str, str] | None = None) -> None:
        self.files, self.environment = files, {**os.environ, **(environment or {})}

    @property
    def is_open(self) -> bool:
        return False

    def begin(self, folder: str) -> None:
        raise NotImplementedError

    def execute(self, buffer: bytes) -> bytes:
        raise NotImplementedError

    def power(self) -> None:
        raise NotImplementedError

    def close(self) -> tuple[int, str]:
        """Ends the host. Returns its exit status, and its messages."""
        raise NotImplementedError


POINTER, SIZE = ctypes.c_void_p, ctypes.c_size_t
SENDS = ctypes.CFUNCTYPE(RC, POINTER, SIZE, ctypes.c_char_p)
RECEIVES = ctypes.CFUNCTYPE(RC, POINTER, ctypes.POINTER(SIZE), POINTER, ctypes.c_int32)
ENDS = ctypes.CFUNCTYPE(None, POINTER)
BEGINS = ctypes.CFUNCTYPE(RC, POINTER, ctypes.POINTER(SIZE), ctypes.c_char_p)


class Context(ctypes.Structure):
    """The first fields of TSS2_TCTI_CONTEXT."""

    _fields_ = [
        ("magic", ctypes.c_uint64),
        ("version", ctypes.c_uint64),
        ("transmit", SENDS),
        ("receive", RECEIVES),
        ("finalize", ENDS),
    ]


class Info(ctypes.Structure):
    """The structure TSS2_TCTI_INFO."""

    _fields_ = [
        ("version", ctypes.c_uint32),
        ("name", ctypes.c_char_p),
        ("description", ctypes.c_char_p),
        ("help", ctypes.c_char_p),
        ("init", BEGINS),
    ]


class Module(Host):
    """The module for libtss2. This class calls it in the same way as libtss2."""

    name, part = "the module", "libtss2-tcti-tpmsim"

    def __init__(self, files: Files, environment: dict[str, str] | None = None) -> None:
        super().__init__(files, environment)
        self.module = ctypes.CDLL(files.of_host("libtss2-tcti-tpmsim.so.0"))
        self.module.Tss2_Tcti_Info.restype = ctypes.POINTER(Info)
        self.info = self.module.Tss2_Tcti_Info().contents
        self.room = ctypes.create_string_buffer(0)

    @property
    def is_open(self) -> bool:
        return len(self.room) > 0

    @property
    def context(self) -> Context:
        return Context.from_buffer(self.room)

    def begin(self, folder: str) -> None:
        size = SIZE()
        self.info.init(None, ctypes.byref(size), None)
        room = ctypes.create_string_buffer(size.value)
        code = self.info.init(
            ctypes.cast(room, POINTER), ctypes.byref(size), f"state={folder},force=always".encode()
        )
        if code:
            raise Refused(f"init {code:x}")
        self.room = room

    def execute(self, buffer: bytes) -> bytes:
        address, size = ctypes.addressof(self.room), SIZE(RESPONSE_BYTES)
        response = ctypes.create_string_buffer(RESPONSE_BYTES)
        code = self.context.transmit(address, len(buffer), buffer)
        code = code or self.context.receive(
            address, ctypes.byref(size), ctypes.cast(response, POINTER), -1
        )
        if code:
            raise Refused(f"{code:x}")
        return response.raw[: size.value]

    def close(self) -> tuple[int, str]:
        if self.is_open:
            self.context.finalize(ctypes.addressof(self.room))
            self.room = ctypes.create_string_buffer(0)
        return 0, ""


class OnDevice(Host):
    """A host that is used through a class of tpmsim.device. If the class raises an exception of one
    of the types in `ends`, the host did not perform the operation.
    """

    ends: tuple[type[Exception], ...] = (DeviceEnded, OSError)
    device: KeptDevice | SimulatorDevice | SwtpmDevice | None = None

    @property
    def is_open(self) -> bool:
        return self.device is not None

    @contextlib.contextmanager
    def refusing(self) -> Iterator[None]:
        """Converts exceptions of the types in `ends` into Refused, with the reason."""
        try:
            yield
        except self.ends as fault:
            raise Refused(str(fault)) from fault

    def execute(self, buffer: bytes) -> bytes:
        with self.refusing():
            return self.device.execute(buffer).response

    def power(self) -> None:
        with self.refusing():
            self.device.power_cycle()


class Python(OnDevice):
    """The Python package, whose class KeptDevice opens the device."""

    name, part, ends = "Python", "libtpmsim", (DeviceEnded, MemoryError)

    @contextlib.contextmanager
    def refusing(self) -> Iterator[None]:
        with super().refusing(), warnings.catch_warnings():
            warnings.simplefilter("ignore", RuntimeWarning)
            yield

    def begin(self, folder: str) -> None:
        with self.refusing():
            self.device = KeptDevice(folder)

    def close(self) -> tuple[int, str]:
        if self.device is not None:
            self.device.close()
            self.device = None
        return 0, ""


class Run(Host):
    """`tpmsim run --state`, which reads one line after another. After a power cycle, only the
    response to the next line shows that the cycle is done.
    """

    name, answers_all, is_program = "the program", False, True
    process: subprocess.Popen[bytes] | None = None

    @property
    def pipes(self) -> tuple[IO[bytes], IO[bytes]]:
        """Returns the program's standard input and output."""
        assert self.process and self.process.stdin and self.process.stdout
        return self.process.stdin, self.process.stdout

    def words(self, folder: str) -> list[str]:
        return [str(self.files.program), "run", "--state", folder, "-"]

    def begin(self, folder: str) -> None:
        pipe, words = subprocess.PIPE, self.words(folder)
        self.process = subprocess.Popen(
            words, env=self.environment, stdin=pipe, stdout=pipe, stderr=pipe
        )

    def tells(self, line: str) -> None:
        try:
            self.pipes[0].write(f"{line}\n".encode())
            self.pipes[0].flush()
        except BrokenPipeError:
            raise Refused("it has ended") from None

    def execute(self, buffer: bytes) -> bytes:
        self.tells(f"cmd {buffer.hex()}")
        line = self.pipes[1].readline()
        if not line.endswith(b"\n"):
            raise Refused("it has ended")
        return bytes.fromhex(line.decode())

    def power(self) -> None:
        self.tells("power")

    def close(self) -> tuple[int, str]:
        if self.process is None:
            return 0, ""
        try:
            told = self.process.communicate(timeout=SECONDS)
            return self.process.returncode, told[1].decode()
        except subprocess.TimeoutExpired:
            self.process.kill()
            self.process.communicate()
            return -1, "it does not end"


class Power(Run):
    """tpmsim-power, which makes one power cycle."""

    name, options = "tpmsim-power", list[str]()

    def words(self, folder: str) -> list[str]:
        return [self.files.of_host("tpmsim-power"), folder, *self.options]

    def power(self) -> None:
        """Does nothing, because the program itself cycles the power."""


class ProgramPower(Power):
    name = "tpmsim power"

    def words(self, folder: str) -> list[str]:
        return [str(self.files.program), "power", folder, *self.options]


class Simulator(OnDevice, Run):
    """tpmsim-simulator, with a client of its protocol. Starting the simulator powers the device on."""

    name, answers_all, comes_on = "the simulator", True, True

    def words(self, folder: str) -> list[str]:
        words = ["--port", "0", "--state", folder, "--force", "always"]
        return [self.files.of_host("tpmsim-simulator"), *words]

    def begin(self, folder: str) -> None:
        super().begin(folder)
        line = self.pipes[1].readline().split()
        if len(line) != 2:
            raise Refused("it does not serve")
        with self.refusing():
            self.device = SimulatorDevice(line[0].decode(), int(line[1]), SECONDS)

    def close(self) -> tuple[int, str]:
        if self.device:
            self.device.close()
        if self.process and self.process.poll() is None:
            self.process.terminate()
        return super().close()


def does(host: Host, act: str, folder: str) -> bytes:
    """Makes a host perform an operation. Returns the response if the operation has one."""
    if act == BEGIN:
        host.begin(folder)
    elif act == POWER:
        host.power()
    else:
        return host.execute(COMMANDS[act])
    return b""
