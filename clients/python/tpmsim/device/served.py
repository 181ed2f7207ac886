"""Devices at the other end of a socket or a file. They use the time and the random bytes of their
host.
"""

import io
import os
import socket
from typing import Self

from tpmsim.device.base import Answered, checked_locality, DeviceEnded, Executed, Transport
from tpmsim.device.in_step import InStep
from tpmsim.standard import number

# The path of a Unix socket, or a host and a port.
Address = str | tuple[str, int]

RECEIVED_AT_ONCE = 65_536


class Connection:
    """A connection that raises TimeoutError if a response takes longer than `seconds`."""

    def __init__(self, address: Address, seconds: float) -> None:
        if isinstance(address, str):
            self.socket = socket.socket(socket.AF_UNIX)
            self.socket.settimeout(seconds)
            try:
                self.socket.connect(address)
            except OSError:
                self.socket.close()
                raise
        else:
            self.socket = socket.create_connection(address, seconds)
            self.socket.setsockopt(socket.IPPROTO_TCP, socket.TCP_NODELAY, 1)

    def send(self, data: bytes) -> Self:
        """Sends bytes; raises DeviceEnded if the other end has closed the connection."""
        try:
            self.socket.sendall(data)
        except (BrokenPipeError, ConnectionResetError):
            raise DeviceEnded("the connection has ended") from None
        return self

    def receive(self, size: int) -> bytes:
        """Receives exactly `size` bytes; raises DeviceEnded if the connection ends before that."""
        text = b""
        while len(text) < size:
            try:
                piece = self.socket.recv(min(size - len(text), RECEIVED_AT_ONCE))
            except ConnectionResetError:
                piece = b""
            if not piece:
                raise DeviceEnded("the connection has ended")
            text += piece
        return text

    def number(self) -> int:
        """Receives a number of four bytes."""
        return int.from_bytes(self.receive(4), "big")

    def response(self) -> bytes:
        """Receives a response, whose header contains its size."""
        header = self.receive(10)
        return header + self.receive(max(int.from_bytes(header[2:6], "big") - 10, 0))

    def close(self) -> None:
        """Closes the connection."""
        self.socket.close()


RESPONSE_BYTES, RETRY, MOST_TIMES = 4096, number(0x922, 4), 5


class OtherDevice(Transport):
    """A device that supports only commands. Each subclass sends them in its own way."""

    at: int | None = None

    def execute(self, buffer: bytes) -> Answered:
        """Sends a command and returns the response; raises TimeoutError if no response comes in
        time. If the device asks for the command again (TPM_RC_RETRY), sends it again, as every
        driver does.
        """
        for _ in range(MOST_TIMES):
            response = self.exchange(buffer)
            if response[6:10] != RETRY:
                break
        self.events.append(Executed(buffer, response, self.at))
        return Answered(response)

    def exchange(self, buffer: bytes) -> bytes:
        """Sends a command, and returns the response."""
        raise NotImplementedError


class LocatedDevice(OtherDevice):
    """A device to which the locality of each command is sent. The locality is 0 at first."""

    at = 0

    @property
    def locality(self) -> int:
        return self.at or 0

    @locality.setter
    def locality(self, place: int) -> None:
        self.at = checked_locality(place)
        self.events.append(f"loc {place}")


class ServedDevice(InStep, OtherDevice):
    """A connection to `tpmsim serve` on a Unix socket, or to another server that accepts plain
    commands. The options of the server set the locality. If a response takes longer than `seconds`,
    TimeoutError is raised and the connection is closed.

    >>> ServedDevice("/nowhere")
    Traceback (most recent call last):
        ...
    FileNotFoundError: [Errno 2] No such file or directory
    """

    def __init__(self, path: str | os.PathLike[str], seconds: float = 60) -> None:
        super().__init__()
        self.data = Connection(os.fspath(path), seconds)

    def exchange(self, buffer: bytes) -> bytes:
        """Sends a command, and returns the response."""
        return self.whole(lambda: self.data.send(buffer).response())

    def hang_up(self) -> None:
        self.data.close()


class FileDevice(InStep, OtherDevice):
    """A file that takes a command and returns the response, like /dev/tpmrm0 and /dev/tpm0.
    Commands to a real TPM of this computer have real effects.

    >>> import tempfile
    >>> with tempfile.NamedTemporaryFile() as file, FileDevice(file.name) as device:
    ...     device.execute(b"\\0" * 10)
    Answered(response=b'', check=None)
    """

    def __init__(self, path: str | os.PathLike[str]) -> None:
        super().__init__()
        self.file = io.FileIO(os.fspath(path), "r+")

    def exchange(self, buffer: bytes) -> bytes:
        """Sends a command, and returns the response."""
        return self.whole(lambda: self.answer(buffer))

    def answer(self, buffer: bytes) -> bytes:
        """Writes a command to the file, and reads the response."""
        os.write(self.file.fileno(), buffer)
        return os.read(self.file.fileno(), RESPONSE_BYTES)

    def hang_up(self) -> None:
        self.file.close()


# Requests of Microsoft's protocol (the simulator of the TPM 2.0 Library), on its two ports.
POWER_ON, POWER_OFF, SEND_COMMAND, NV_ON, SESSION_END = 1, 2, 8, 11, 20


class SimulatorDevice(InStep, LocatedDevice):
    """A device that speaks Microsoft's protocol: it receives commands on a port, and requests to
    the platform on the next port. Its power is switched on at first; `power_cycle` switches it off
    and on.

    >>> SimulatorDevice("127.0.0.1", 1)
    Traceback (most recent call last):
        ...
    ConnectionRefusedError: [Errno 111] Connection refused
    """

    def __init__(self, host: str = "127.0.0.1", port: int = 2321, seconds: float = 60) -> None:
        super().__init__()
        self.data = Connection((host, port), seconds)
        try:
            self.platform = Connection((host, port + 1), seconds)
        except OSError:
            self.data.close()
            raise
        self.whole(lambda: self.tell(POWER_ON, NV_ON))

    def tell(self, *requests: int) -> None:
        """Sends requests to the platform; raises DeviceEnded if the device refuses one."""
        for request in requests:
            told = self.platform.send(number(request, 4)).number()
            if told:
                raise DeviceEnded(f"the platform refuses request {request} with {told}")

    def power_cycle(self) -> None:
        self.whole(lambda: self.tell(POWER_OFF, POWER_ON, NV_ON))
        self.events.append("power")

    def exchange(self, buffer: bytes) -> bytes:
        """Sends a command, and returns the response."""
        return self.whole(lambda: self.answer(buffer))

    def answer(self, buffer: bytes) -> bytes:
        """Sends a command with its locality, and returns the response."""
        head = number(SEND_COMMAND, 4) + number(self.locality, 1) + number(len(buffer), 4)
        response = self.data.send(head + buffer).receive(self.data.number())
        if self.data.number():
            raise DeviceEnded("the simulator refuses a command")
        return response

    def hang_up(self) -> None:
        for connection in (self.data, self.platform):
            connection.close()

    def close(self) -> None:
        if not self.why_closed:
            for connection in (self.data, self.platform):
                try:
                    connection.send(number(SESSION_END, 4))
                except (DeviceEnded, OSError):
                    pass  # the other end closed first
        super().close()
