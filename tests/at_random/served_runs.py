"""Plays runs with `tpmsim serve`, and compares the responses with the expected ones. Lines of
streams.py describe the runs.
"""

import pathlib
import select
import socket
import subprocess
import tempfile
from itertools import zip_longest

from tests.common import streams
from tests.common.client import connected, responses

SECONDS = 600


def exchanged(client, connection):
    """Sends the bytes of a connection in pieces. Returns the received bytes."""
    left, answered, is_sending = connection.sent, b"", True
    while True:
        writers = [client] if is_sending else []
        readable, writable, _ = select.select([client], writers, [], SECONDS)
        if not readable and not writable:
            return answered
        try:
            if readable:
                answer = client.recv(65536)
                if not answer:
                    return answered
                answered += answer
            if writable and left:
                left = left[client.send(left[: connection.piece]) :]
            elif writable:
                client.shutdown(socket.SHUT_WR)
                is_sending = False
        except BrokenPipeError:
            is_sending = False
        except ConnectionResetError:
            # The program closed the connection before it had read all bytes.
            return answered


class Folder:
    """The folder with the program's files, in which consecutive runs serve the same device."""

    def __init__(self, program, path):
        self.program, self.path = program, pathlib.Path(path)
        self.image = self.path / "image"

    def told(self):
        return streams.image_told(self.image.read_bytes() if self.image.exists() else None)

    def began(self, run):
        if run.image_before is None:
            self.image.unlink(missing_ok=True)
        elif run.is_given:
            self.image.write_bytes(run.image_before)
        (self.path / "entropy").write_bytes(run.random)
        (self.path / "socket").unlink(missing_ok=True)
        words = f"serve --socket socket --image image --entropy entropy --locality {run.locality}"
        count = str(len(run.connections))
        return subprocess.Popen(
            [self.program, *words.split(), "--connections", count],
            cwd=self.path,
            stderr=subprocess.PIPE,
        )

    def serve(self, run):
        """Returns the responses to each connection, the error message of the run, and a description
        of the image that it left.
        """
        process, answers = self.began(run), []
        try:
            for connection in run.connections:
                client = connected(self.path / "socket", process)
                answered = b""
                if client:
                    with client:
                        answered = exchanged(client, connection)
                answers.append(list(responses(answered)))
            _, error = process.communicate(timeout=SECONDS)
        except subprocess.TimeoutExpired:
            error = b"it does not end"
        finally:
            process.kill()
            process.wait()
        return answers, error.decode("utf-8", "replace").strip(), self.told()


def compared(run, answers, error, image):
    """Yields pairs of expected and actual results of a run, each with a line number."""
    for connection, given in zip(run.connections, answers):
        number = run.number
        for answered, response in zip_longest(connection.answered, given):
            number, buffer, answer = answered or (number, b"", b"")
            shown = streams.without_times(buffer, response or b"").hex()
            wanted = streams.without_times(buffer, answer).hex()
            yield number, wanted or "no response", shown or "no response"
    yield run.number, f"end {run.error}", f"end {error}"
    yield run.number, run.image_told, image


def first_difference(program, lines):
    """Returns None if all results are as expected. Otherwise returns the number of the first line
    that differs, the expected result, and the actual one.
    """
    runs = streams.played(lines)
    with tempfile.TemporaryDirectory() as path:
        folder = Folder(program, path)
        for run in runs:
            for number, wanted, given in compared(run, *folder.serve(run)):
                if wanted != given:
                    return number, wanted, given
    return None
