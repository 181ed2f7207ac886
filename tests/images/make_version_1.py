"""Writes missing images of version 1, and compares the existing ones:

    tools/python.sh tests/images/make_version_1.py PROGRAM

PROGRAM is a program that writes this version. It serves a device for each script NAME.tpm in
tests/images/version_1. The commands up to each `power` line are one run. The test passes the
script's random bytes to PROGRAM, and sets its clock with tests/common/clock.c, which `cc` compiles.
The image at the end must be that of the Python device after the same commands. If NAME.hex exists,
the image in it must be equal. Otherwise the test writes the image there.
"""

import os
import pathlib
import sys
import tempfile

from tests.common import client, expected
from tests.common.shims import SERVE, Shim
from tests.images import version_1
from tpmsim.model.machine import MANUFACTURED, Model

FIRST_SECOND = 1_000_000
SECONDS = 600


def runs_of(script):
    """Returns the commands of each run."""
    runs = [[]]
    for event in expected.events_of(script):
        if event is None:
            runs.append([])
        else:
            runs[-1].append(event)
    if any(run and run[0].elapsed for run in runs):
        sys.exit("a run's first command comes at once")
    if any(it.locality for run in runs for it in run):
        sys.exit("all commands come from locality 0")
    return runs


def played(runs):
    """Returns the responses of the Python device, and its image in version 1."""
    device, answers = Model(), []
    for number, run in enumerate(runs):
        if number:
            device.power_cycle()
        for event in run:
            outcome = device.execute(event.buffer, 0, event.random, event.elapsed)
            answers.append(outcome.response)
    return answers, version_1.image_of(device)


class Served:
    """A device that a program serves in a folder. The file `clock` in this folder contains the time
    that the program reads as the host's time.
    """

    def __init__(self, program, path):
        self.path, self.program = pathlib.Path(path), Shim(os.path.abspath(program), "clock", path)

    def is_now(self, time):
        """Sets the host's clock to a time in milliseconds since the first command of the run. The
        clock keeps this time until it is set again.
        """
        seconds, milliseconds = divmod(time, 1000)
        told = f"{FIRST_SECOND + seconds} {milliseconds * 1_000_000}\n"
        (self.path / "clock.new").write_text(told, "ascii")
        (self.path / "clock.new").replace(self.path / "clock")

    def serve(self, run):
        """Returns the responses of a run with one connection."""
        random = b"" if (self.path / "image").exists() else MANUFACTURED
        (self.path / "entropy").write_bytes(random + b"".join(it.random for it in run))
        time = 0
        self.is_now(time)
        process = self.program.begun([*SERVE, "1"], self.path, CLOCK=self.path / "clock")
        try:
            with client.connected(self.path / "socket", process) as connection:
                answers = []
                for event in run:
                    time += event.elapsed
                    self.is_now(time)
                    connection.sendall(event.buffer)
                    answers.append(connection.recv(4096))
            if process.wait(SECONDS):
                sys.exit("the program failed")
            return answers
        finally:
            process.kill()
            process.wait()


def served(program, runs):
    """Returns the responses of the program in all runs, and the image that it leaves."""
    with tempfile.TemporaryDirectory() as path:
        device = Served(program, path)
        answers = [answer for run in runs for answer in device.serve(run)]
        return answers, (device.path / "image").read_bytes()


(program,) = sys.argv[1:]
for name in version_1.NAMES:
    runs = runs_of(version_1.script(name))
    wanted, given = played(runs), served(program, runs)
    if wanted != given:
        sys.exit(f"{name}: the program and the device in Python differ")
    _, text = given
    if not version_1.hex_file(name).exists():
        version_1.hex_file(name).write_text(version_1.spelled(text), "ascii")
        print(f"{name}: {len(text):,} bytes are written")
    elif text != version_1.kept(name):
        sys.exit(f"{name}: these are not the bytes that are kept")
    else:
        print(f"{name}: the {len(text):,} bytes that are kept")
