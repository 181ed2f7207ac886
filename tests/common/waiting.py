"""Clients of `tpmsim serve`, of which one keeps its connection open while the others wait:

    python3 waiting.py three SOCKET ERRORS HEX
    python3 waiting.py fail WITHOUT WITH ERRORS HEX

All clients send the command HEX. With `three`, three clients use one socket, and each response is
printed. The first client does not close its connection until the file ERRORS contains something.
With `fail`, two clients use each of two sockets. When the file ERRORS contains something, the first
client of each socket sends HEX again, and reads until its connection ends.
"""

import pathlib
import socket
import sys
import time

from tests.common.client import SECONDS, answer, connected, received


def clients_of(path: str, number: int, command: bytes) -> list[socket.socket]:
    """Connects this many clients, and sends the command from each."""
    clients = [connected(path) for _ in range(number)]
    for client in clients:
        client.sendall(command)
    return clients


def await_report(errors: str) -> None:
    """Waits for a minute at most until the file contains something."""
    until = time.monotonic() + SECONDS
    while not pathlib.Path(errors).stat().st_size and time.monotonic() < until:
        time.sleep(0.01)


def three(path: str, errors: str, text: str) -> None:
    """Serves three clients, one after another."""
    for number, client in enumerate(clients_of(path, 3, bytes.fromhex(text)), 1):
        print(number, answer(client).hex())
        await_report(errors)
        if number == 2:
            # The client is silent for longer than the three seconds after which the program looks
            # for a waiting client.
            time.sleep(4)
        client.close()


def fail(without: str, with_it: str, errors: str, text: str) -> None:
    """Keeps the clients of two runs silent until the second run reports a waiting client. The
    clients of the first run have then been silent for longer.
    """
    command = bytes.fromhex(text)
    clients = []
    for path in (without, with_it):
        clients.append(clients_of(path, 2, command))
        answer(clients[-1][0])
    await_report(errors)
    for first, second in clients:
        first.sendall(command)
        received(first)
        first.close()
        second.close()


{"three": three, "fail": fail}[sys.argv[1]](*sys.argv[2:])
