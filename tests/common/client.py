"""A client of `tpmsim serve`:

    python3 client.py SOCKET SIZE HEX..

The client waits for the socket, and sends the bytes in pieces of SIZE bytes. Then it closes its
sending side, and prints each response on a line of its own.
"""

import socket
import sys
import time

HEADER_BYTES = 10
SECONDS = 600


def connected(path, process=None):
    """Connects to the socket within a minute. Returns None if the process has ended."""
    until = time.monotonic() + SECONDS
    while time.monotonic() < until:
        client = socket.socket(socket.AF_UNIX, socket.SOCK_STREAM)
        try:
            client.connect(str(path))
            return client
        except (FileNotFoundError, ConnectionRefusedError):
            client.close()
        if process and process.poll() is not None:
            return None
        time.sleep(0.001)
    sys.exit("nobody answers at the socket")


def received(client):
    """Reads all bytes up to the end of the stream."""
    return b"".join(iter(lambda: client.recv(65536), b""))


def responses(text):
    """Divides a stream into its responses, by the sizes in their headers."""
    at = 0
    while at < len(text):
        size = max(int.from_bytes(text[at + 2 : at + 6], "big"), 1)
        yield text[at : at + size]
        at += size


def answer(client):
    """Reads a whole response. Returns None if the stream ends first."""
    header = client.recv(HEADER_BYTES, socket.MSG_WAITALL)
    size = max(int.from_bytes(header[2:6], "big"), HEADER_BYTES)
    text = header + client.recv(size - HEADER_BYTES, socket.MSG_WAITALL)
    return text if len(text) == size else None


def tell(client, *label):
    """Closes the sending side, and prints each response after a label."""
    client.shutdown(socket.SHUT_WR)
    for response in responses(received(client)):
        print(*label, response.hex())


def main():
    path, size, *words = sys.argv[1:]
    text = bytes.fromhex("".join(words))
    client = connected(path)
    try:
        for at in range(0, len(text), int(size)):
            client.sendall(text[at : at + int(size)])
        client.shutdown(socket.SHUT_WR)
    except OSError:
        print("not all was taken")
    for response in responses(received(client)):
        print(response.hex())


if __name__ == "__main__":
    main()
