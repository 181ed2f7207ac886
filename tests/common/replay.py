"""Sends a script to a served device, command by command over its socket:

    python3 replay.py prepare SCRIPT  writes `entropy` and `buffers`, and prints the number of
                                      buffers
    python3 replay.py send SOCKET     sends each buffer in a connection of its own, and prints the
                                      responses

The commands are those before the first `power` line, and there must be no `loc` or `wait` line
among them. The file `entropy` contains the random bytes for the new device, and then those for each
command.
"""

import itertools
import pathlib
import sys

from tpmsim.model.machine import MANUFACTURED
from client import connected, tell
from tests.common.expected import events_of


def prepare(script):
    text = pathlib.Path(script).read_text("ascii")
    commands = list(itertools.takewhile(lambda it: it is not None, events_of(text)))
    if any(it.locality or it.elapsed for it in commands):
        sys.exit(f"{script} has a line that is not replayed")
    entropy = b"".join([MANUFACTURED, *(it.random for it in commands)])
    pathlib.Path("entropy").write_bytes(entropy)
    pathlib.Path("buffers").write_text("\n".join(it.buffer.hex() for it in commands), "ascii")
    print(len(commands))


def send(socket):
    for line in pathlib.Path("buffers").read_text("ascii").splitlines():
        client = connected(socket)
        client.sendall(bytes.fromhex(line))
        tell(client)


{"prepare": prepare, "send": send}[sys.argv[1]](sys.argv[2])
