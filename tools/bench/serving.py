"""Measures `tpmsim serve`:

    python3 serving.py PROGRAM BARE IMAGE

PROGRAM is tpmsim. BARE is a program that reads twelve bytes at a time from a socket, and then
writes 44 bytes, the size of a response with 32 random bytes. IMAGE is the image of a device.
"""

import contextlib
import os
import pathlib
import shutil
import socket
import subprocess
import sys
import tempfile
import time

STARTUP = bytes.fromhex("80010000000c000001440000")
RANDOM = bytes.fromhex("80010000000c0000017b0020")
RESPONSE_SIZE = 44
ROUNDS = 20_000


def connected(path):
    """Waits until a socket exists, and returns a connection to it."""
    client = socket.socket(socket.AF_UNIX, socket.SOCK_STREAM)
    while client.connect_ex(path):
        pass
    return client


def received(client, size):
    text = client.recv(size, socket.MSG_WAITALL)
    assert len(text) == size, "the connection ended"


def round_trip(client):
    """Returns the time of one command and its response, in microseconds: the minimum of five
    series.
    """
    took = []
    for _ in range(5):
        start = time.perf_counter()
        for _ in range(ROUNDS):
            client.sendall(RANDOM)
            received(client, RESPONSE_SIZE)
        took.append((time.perf_counter() - start) / ROUNDS * 1e6)
    return min(took)


@contextlib.contextmanager
def served(words, path):
    """Starts a program that serves one connection on a socket. Yields the program and the
    connection.
    """
    server = subprocess.Popen(words)
    with connected(path) as client:
        yield server, client
    server.wait()


def serving(program):
    words = "serve --socket socket --image image --entropy /dev/zero --locality 0 --connections 1"
    return served([program, *words.split()], "socket")


def start(client):
    client.sendall(STARTUP)
    received(client, 10)


def first_answer(program):
    """Returns the milliseconds from the start of the program to its first response."""
    began = time.perf_counter()
    with serving(program) as (_, client):
        start(client)
        return (time.perf_counter() - began) * 1e3


def memory_of(process):
    status = pathlib.Path(f"/proc/{process.pid}/status").read_text()
    return status.split("VmHWM:")[1].split()[0]


def main():
    program, bare, image = map(os.path.abspath, sys.argv[1:])
    with tempfile.TemporaryDirectory() as folder:
        os.chdir(folder)
        shutil.copy(image, "image")
        started = min(first_answer(program) for _ in range(20))
        print(f"start to first answer, with an image: {started:.1f} ms")
        with serving(program) as (server, client):
            start(client)
            device = round_trip(client)
            print(f"resident: {memory_of(server)} kB")
        with served([bare, "bare"], "bare") as (_, client):
            loop = round_trip(client)
        print(f"round trip of GetRandom: {device:.2f} us; of a bare loop: {loop:.2f} us")
        print(f"ratio: {device / loop:.3f}")


main()
