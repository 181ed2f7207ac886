"""Serves a TPM to one run of a client: on a Unix socket, and on four TCP ports by the protocols of
swtpm and of Microsoft's simulator.
"""

from __future__ import annotations

import contextlib
import os
import selectors
import socket
import tempfile
from concurrent.futures import ThreadPoolExecutor
from typing import Callable, Self

from tpmsim.sweep.protocols import Commands, Control, Execute, Platform, Power, Protocol, Simulator

HOST, RECEIVED_AT_ONCE = "127.0.0.1", 65_536

# How long a client may take to read a response, in seconds.
SEND_SECONDS = 10


def listeners_of_ports() -> tuple[socket.socket, socket.socket]:
    """Returns listening sockets at a free port and at the next one."""
    while True:
        first = socket.create_server((HOST, 0))
        try:
            return first, socket.create_server((HOST, first.getsockname()[1] + 1))
        except (OSError, OverflowError):
            first.close()


def acknowledge(connection: socket.socket) -> None:
    """Acknowledges received bytes at once. Some clients send a request in pieces, and before each
    piece their hosts wait for the acknowledgement of the previous one, otherwise for 40 ms.
    """
    if connection.family == socket.AF_INET:
        connection.setsockopt(socket.IPPROTO_TCP, socket.TCP_QUICKACK, 1)


class Server:
    """Serves a TPM in a thread of its own until `close`."""

    def __init__(self, execute: Execute, power_cycle: Callable[[], None]) -> None:
        self.execute, self.power = execute, Power(power_cycle)
        self.folder = tempfile.TemporaryDirectory(prefix="tpmsim-sweep-")
        self.path = os.path.join(self.folder.name, "tpm.sock")
        self.selector = selectors.DefaultSelector()
        unix = socket.socket(socket.AF_UNIX)
        unix.bind(self.path)
        unix.listen()
        swtpm, simulator = listeners_of_ports(), listeners_of_ports()
        self.port, self.simulator_port = (it[0].getsockname()[1] for it in (swtpm, simulator))
        listeners = unix, *swtpm, *simulator
        for listener, made in zip(listeners, (Commands, Commands, Control, Simulator, Platform)):
            self.selector.register(listener, selectors.EVENT_READ, made)
        self.ending, self.end = socket.socketpair()
        self.selector.register(self.ending, selectors.EVENT_READ, None)
        self.pool = ThreadPoolExecutor(1)
        self.served = self.pool.submit(self.serve)

    def serve(self) -> None:
        """Answers all connections until `close` sends a byte, and then closes all sockets. A fault
        closes them too, so that the client ends.
        """
        try:
            while self.serves_next():
                pass
        finally:
            for key in list(self.selector.get_map().values()):
                assert isinstance(key.fileobj, socket.socket)
                key.fileobj.close()
            self.selector.close()

    def serves_next(self) -> bool:
        """Answers what has arrived; returns whether more may come."""
        for key, _ in self.selector.select():
            place = key.fileobj
            assert isinstance(place, socket.socket)
            if place is self.ending:
                return False
            if isinstance(key.data, Protocol):
                self.receive(place, key.data)
            else:
                self.accept(place, key.data)
        return True

    def accept(self, listener: socket.socket, made: type[Protocol]) -> None:
        connection, _ = listener.accept()
        connection.settimeout(SEND_SECONDS)
        if connection.family == socket.AF_INET:
            connection.setsockopt(socket.IPPROTO_TCP, socket.TCP_NODELAY, 1)
        self.selector.register(connection, selectors.EVENT_READ, made(self.execute, self.power))

    def receive(self, connection: socket.socket, protocol: Protocol) -> None:
        """Answers what a client sent; ends a connection that is over, and forgets one that ended."""
        try:
            data = connection.recv(RECEIVED_AT_ONCE)
            if data:
                acknowledge(connection)
                connection.sendall(protocol.answers(data))
                if not protocol.is_over:
                    return
        except OSError:
            pass  # the client is gone
        self.selector.unregister(connection)
        connection.close()

    @property
    def environment(self) -> dict[str, str]:
        """The variables by which a client finds the TPM."""
        tcti, port = f"swtpm:host={HOST},port={self.port}", self.simulator_port
        return {
            **{"TPM2TOOLS_TCTI": tcti, "TCTI": tcti},
            **{"TPMSIM_SOCKET": self.path, "TPMSIM_PORT": str(self.port)},
            # Those of IBM's TSS.
            **{"TPM_INTERFACE_TYPE": "socsim", "TPM_SERVER_TYPE": "mssim", "TPM_SERVER_NAME": HOST},
            **{"TPM_COMMAND_PORT": str(port), "TPM_PLATFORM_PORT": str(port + 1)},
        }

    def close(self) -> None:
        """Ends the thread. Raises what ended it before, if anything did."""
        with contextlib.suppress(BrokenPipeError):
            self.end.send(b"\0")
        self.end.close()
        self.folder.cleanup()
        self.pool.shutdown()
        self.served.result()

    def __enter__(self) -> Self:
        return self

    def __exit__(self, *given: object) -> None:
        self.close()
