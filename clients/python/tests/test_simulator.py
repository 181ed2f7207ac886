"""Tests the server for Microsoft's simulator protocol: its clients, their errors, and the state
that the server saves.
"""

import pathlib
import select
import shutil
import socket
import subprocess
import tempfile
import time
import unittest

from programs import NEEDS_SIMULATOR, PATIENCE, SIMULATOR, simulator
from tpmsim.caller import Caller
from tpmsim.device import SimulatorDevice
from tpmsim.standard import number

# The values of PCR 17 after a launch with the data abc. They were computed with sha1sum and
# sha256sum, from zeros and the digest of abc.
LAUNCHED = [
    "ccd5bd41458de644ac34a2478b58ff819bef5acf",
    "589f9ffed4c477966bfb8d41f37895b08c69047df8f911d6f3b57fbe08faee8d",
]

SEND_COMMAND, STOP = number(8, 4), number(21, 4)
STARTUP = bytes.fromhex("80010000000c000001440000")
GET_RANDOM = bytes.fromhex("80010000000c0000017b0010")

# LEAST_BUFFER is the size of the host's buffer for a client that never reads. It is small, so that
# it is soon full. If the server accepts no more data for STUCK seconds, the test assumes that it is
# waiting for that client.
LEAST_BUFFER, STUCK = 4096, 0.2


def request(buffer, locality=0):
    return SEND_COMMAND + number(locality, 1) + number(len(buffer), 4) + buffer


def received(stream, size):
    """Returns the next bytes of a stream. MSG_WAITALL has no effect on a socket with a timeout."""
    text = b""
    while len(text) < size:
        piece = stream.recv(size - len(text))
        if not piece:
            raise EOFError(f"the stream ends after {len(text)} of {size} bytes")
        text += piece
    return text


@NEEDS_SIMULATOR
class Simulator(unittest.TestCase):
    def setUp(self):
        self.folder = pathlib.Path(self.enterContext(tempfile.TemporaryDirectory()))
        image = str(self.folder / "image")
        self.address = self.enterContext(simulator("--image", image))

    def client(self):
        return self.enterContext(SimulatorDevice(*self.address, PATIENCE))

    def started(self):
        """Returns a client of a started device."""
        device = self.client()
        Caller(device).start_up()
        return device

    def connection(self, port=0):
        host, first = self.address
        return self.enterContext(socket.create_connection((host, first + port), PATIENCE))

    def asks(self, stream, text, answer):
        stream.sendall(text)
        self.assertEqual(received(stream, len(answer)), answer)

    def test_faults_are_of_one_client(self):
        """One client vanishes in the middle of a request, one never reads, one is slow, and one
        sends nonsense. The server still serves the other clients.
        """
        device = self.started()
        vanishing = self.connection()
        vanishing.sendall(request(GET_RANDOM)[:7])
        vanishing.close()
        deaf, slow, wrong = self.connection(), self.connection(), self.connection()
        deaf.setsockopt(socket.SOL_SOCKET, socket.SO_RCVBUF, LEAST_BUFFER)
        deaf.setsockopt(socket.SOL_SOCKET, socket.SO_SNDBUF, LEAST_BUFFER)
        deaf.setblocking(False)
        left = b""
        while select.select((), (deaf,), (), STUCK)[1]:
            left = left or request(GET_RANDOM) * 100
            left = left[deaf.send(left) :]
        slow.sendall(request(GET_RANDOM)[:3])
        self.asks(wrong, number(99, 4), number(1, 4))
        self.assertEqual(wrong.recv(4), b"")
        self.assertEqual(len(Caller(device).call("GetRandom", bytesRequested=8)["randomBytes"]), 8)
        self.asks(slow, request(GET_RANDOM)[3:], number(28, 4))

    def test_pieces_take_no_time(self):
        """A client that sends a request in four pieces causes no delay, even if its host waits for
        acknowledgements.
        """
        self.started()
        stream, buffer = self.connection(), request(GET_RANDOM)

        def seconds():
            began = time.monotonic()
            for piece in (buffer[:4], buffer[4:5], buffer[5:9], buffer[9:]):
                stream.send(piece)
            received(stream, 36)
            return time.monotonic() - began

        # A busy machine delays many answers. The wait for an acknowledgement would delay each of them.
        self.assertTrue(any(seconds() < 0.040 for _ in range(1000)))

    def test_power(self):
        device = self.started()
        self.assertEqual(self.client().execute(STARTUP).response[6:10], number(0x100, 4))
        platform, commands = self.connection(1), self.connection()
        self.asks(platform, number(17, 4), number(0, 4))
        self.assertEqual(device.execute(GET_RANDOM).response[6:10], number(0x100, 4))
        self.asks(platform, number(2, 4), number(0, 4))
        self.asks(commands, request(STARTUP), bytes(8))

    def test_wrong_requests(self):
        self.started()
        stream = self.connection()
        stream.sendall(request(GET_RANDOM, locality=5))
        self.assertEqual(received(stream, 18)[10:14], number(0x907, 4))
        stream.sendall(request(GET_RANDOM + bytes(4096)))
        self.assertEqual(received(stream, 18)[10:14], number(0x142, 4))

    def test_dynamic_launch(self):
        device, stream = self.started(), self.connection()
        for text in (number(5, 4), number(6, 4) + number(3, 4) + b"abc", number(7, 4)):
            self.asks(stream, text, number(0, 4))
        values = Caller(device).send(Caller(device).read_pcr(17))["pcrValues"]
        self.assertEqual([it.hex() for it in values], LAUNCHED)

    def test_image(self):
        """A change is in the file before its response is sent, so the next server has it too."""
        self.started()
        before = (self.folder / "image").read_bytes()
        stop = self.connection(1)
        self.asks(stop, STOP, number(0, 4))
        self.assertEqual(before[:4], b"TPMI")
        self.assertEqual(stop.recv(1), b"")
        self.address = self.enterContext(simulator("--image", str(self.folder / "image")))
        self.assertEqual(Caller(self.started()).call("ReadClock")["currentTime"].resets, 2)

    @unittest.skipUnless(shutil.which("tpm2_getrandom"), "there is no tpm2_getrandom")
    def test_tools(self):
        where = "mssim:host=%s,port=%d" % self.address
        for words in ("tpm2_startup -c", "tpm2_getrandom -f --hex 8"):
            done = subprocess.run([*words.split(), "-T", where], capture_output=True, timeout=600)
            self.assertEqual(done.returncode, 0, done.stderr)
        self.assertEqual(len(done.stdout), 16)


@NEEDS_SIMULATOR
class Words(unittest.TestCase):
    def test_wrong_words(self):
        help_line = "see tpmsim-simulator --help"
        for words, said in (
            ("--bind=", f"--bind does not take ; {help_line}"),
            ("--bind localhost", f"--bind does not take localhost; {help_line}"),
            ("--port 65535", f"--port does not take 65535; {help_line}"),
            ("--devices 0", f"--devices does not take 0; {help_line}"),
            ("--seed 5", f"--seed does not take 5; {help_line}"),
            ("--clock none", f"--clock does not take none; {help_line}"),
            ("--image one --devices 2", "--image has the state of one device"),
            (
                "--port 65534 --devices 2",
                "--port and --devices need ports above 65535; take a lower --port",
            ),
            (
                "--state one --image two",
                "--state goes without --image, --record and --clock commands",
            ),
            ("--force always", "--force is allowed only with --state"),
            ("--keep 2", "--keep is allowed only with --state"),
            ("more", "more belongs to no option; see tpmsim-simulator --help"),
        ):
            self.check(words, 2, said)

    def test_what_cannot_be_opened(self):
        missing = "No such file or directory"
        for words, said in (
            (f"--image {'x' * 5000}", "the path of the image is too long"),
            ("--image /nowhere/image", f"/nowhere/image.lock cannot be opened: {missing}"),
            ("--state /nowhere/folder", f"/nowhere/folder cannot be made: {missing}"),
            ("--record /nowhere", f"/nowhere cannot get another file boot-N.tpm: {missing}"),
            (
                "--bind 192.0.2.1",
                "192.0.2.1 is not listened at, port 2321 or the next: "
                "Cannot assign requested address",
            ),
        ):
            self.check(words, 3, said)

    def check(self, words, status, said):
        with self.subTest(words):
            given = SIMULATOR, *words.split()
            done = subprocess.run(given, capture_output=True, text=True, timeout=600)
            self.assertEqual((done.returncode, done.stdout), (status, ""))
            self.assertEqual(done.stderr, f"tpmsim-simulator: {said}\n")
