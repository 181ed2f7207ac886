"""Clients of `tpmsim serve` that close their connections in other ways than client.py, and several
clients at the same time:

    python3 clients.py KIND SOCKET HEX..

One or two clients send the commands HEX. KIND is one of these:

    close      closes at once
    read       ends without reading its response, so that the device's next read fails
    write      sends TPM2_GetRandom after the commands, and reads no response, until the device
               reads no more; then it ends, so that the device's write fails
    turns      two clients, whose bytes alternate; prints the responses to each
    idle       connects after a client that sends nothing; prints its responses, and whether they
               came before that client closed
    unread     connects after a client that sends TPM2_GetRandom until the device reads no more;
               prints the same as `idle`
    removed    two clients; the path of their socket is removed before they send
    folder     like `removed`, but a folder replaces the socket
    clock      starts the device, and reads its time for a second, sending fifty commands at once.
               The last time must be the number of whole milliseconds since the start, according to
               the host's clock

`clients.py during SOCKET HEX LINE` runs the shell command LINE after the first response, before the
client closes. `clients.py long SOCKET MILLIONS WRITE` alternates between the command WRITE, a
TPM2_NV_Write, and TPM2_GetRandom, until it has sent that many million bytes. Meanwhile it reads the
responses. At the end it prints each different response, and how often it came.
"""

import collections
import os
import pathlib
import select
import socket
import subprocess
import sys
import threading
import time

from client import answer, connected, received, responses, tell

GET_RANDOM = bytes.fromhex("80010000000c0000017b0004")
STARTUP, STARTED_SIZE = bytes.fromhex("80010000000c000001440000"), 10
READ_CLOCK, CLOCK_SIZE, AT_ONCE = bytes.fromhex("80010000000a00000181"), 35, 50
A_WHILE = 0.5


def fill(client):
    """Sends commands until the device stops reading them."""
    client.setblocking(False)
    while select.select([], [client], [], A_WHILE)[1]:
        client.send(GET_RANDOM)


def leave(path, text, before):
    """Sends the commands, calls `before`, and closes the connection."""
    client = connected(path)
    client.sendall(text)
    before(client)
    client.close()


def take_turns(path, text):
    clients = [connected(path), connected(path)]
    for byte in text:
        for client in clients:
            client.sendall(bytes([byte]))
    for number, client in enumerate(clients, 1):
        tell(client, number)


def beside(path, text, occupy):
    """Connects two clients. The first one occupies the device, so the second one has to wait."""
    first = connected(path)
    occupy(first)
    second = connected(path)
    second.sendall(text)
    answered = select.select([second], [], [], A_WHILE)[0]
    print("the one beside it is answered" if answered else "the one beside it waits")
    first.close()
    tell(second)


def replaced(path, text, replace):
    """Connects two clients, and removes the path of their socket. `replace` may create something at
    that path. Then both clients send.
    """
    clients = [connected(path), connected(path)]
    os.unlink(path)
    replace(pathlib.Path(path))
    for number, client in enumerate(clients, 1):
        client.sendall(text)
        tell(client, number)


def asked(client, commands, size):
    """Sends commands. Returns the responses, and the host's times before and after, in
    milliseconds.
    """
    before = time.monotonic() * 1000
    client.sendall(commands)
    text = client.recv(size, socket.MSG_WAITALL)
    if len(text) < size:
        sys.exit("the connection has ended")
    return text, before, time.monotonic() * 1000


def compare_clock(path, _):
    client = connected(path)
    _, before_start, after_start = asked(client, STARTUP, STARTED_SIZE)
    commands, before = 0, after_start
    while commands < 1000 or before < after_start + 1000:
        text, before, after = asked(client, READ_CLOCK * AT_ONCE, CLOCK_SIZE * AT_ONCE)
        commands += AT_ONCE
    told = int.from_bytes(text[-CLOCK_SIZE:][10:18], "big")
    if before - after_start - 1 <= told <= after - before_start:
        print("the device's time is the host's")
    else:
        print(f"{commands} commands, {told} milliseconds of {after - before_start:.0f}")


def during(path, text, line):
    client = connected(path)
    client.sendall(bytes.fromhex(text))
    print(answer(client).hex())
    subprocess.run(line, shell=True, check=True)
    tell(client)


def go_on(path, millions, text):
    client = connected(path)
    group = bytes.fromhex(text) + GET_RANDOM
    groups = int(millions) * 1000000 // len(group) + 1

    def send():
        for _ in range(groups):
            client.sendall(group)
        client.shutdown(socket.SHUT_WR)

    sender = threading.Thread(target=send, daemon=True)
    sender.start()
    got = collections.Counter(response.hex() for response in responses(received(client)))
    sender.join()
    for response, times in sorted(got.items()):
        print("as many as were sent" if times == groups else f"{times} of {groups}", response)


def nothing(_):
    pass


KINDS = {
    "close": (leave, nothing),
    "read": (leave, lambda client: select.select([client], [], [], 10)),
    "write": (leave, fill),
    "turns": (take_turns,),
    "idle": (beside, nothing),
    "unread": (beside, fill),
    "removed": (replaced, nothing),
    "folder": (replaced, pathlib.Path.mkdir),
    "clock": (compare_clock,),
}


def main():
    kind, path, *words = sys.argv[1:]
    if kind == "long":
        go_on(path, *words)
    elif kind == "during":
        during(path, *words)
    else:
        act, *choices = KINDS[kind]
        act(path, bytes.fromhex("".join(words)), *choices)


main()
