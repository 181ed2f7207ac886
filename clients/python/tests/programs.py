"""Runs programs in the background, for tests that use them."""

import atexit
import contextlib
import os
import signal
import subprocess
import shutil
import tempfile
import time
import unittest

from tpmsim.device.child import program_found

# How long a client waits for a response, in seconds. A busy machine delays responses, and must not fail
# a test.
PATIENCE = 3600

# The path of tpmsim-simulator: the program that tests/python/python.sh has built, or else the
# installed program.
SIMULATOR = os.environ.get("TPMSIM_SIMULATOR") or shutil.which("tpmsim-simulator")
NEEDS_SIMULATOR = unittest.skipUnless(SIMULATOR, "there is no tpmsim-simulator")


def folder_of_compiled():
    """Returns the folder for the compiled modules of a Python program: $PYTHONPYCACHEPREFIX if it
    is set, otherwise a new folder.
    """
    kept = os.environ.get("PYTHONPYCACHEPREFIX")
    if kept:
        return kept
    folder = tempfile.TemporaryDirectory()
    atexit.register(folder.cleanup)
    return folder.name


COMPILES = {"PYTHONDONTWRITEBYTECODE": "", "PYTHONPYCACHEPREFIX": folder_of_compiled()}


@contextlib.contextmanager
def running(*words, ready):
    """Runs a program, and yields when it is ready. Then ends it with SIGTERM, and checks its
    status.
    """
    given = {"env": {**os.environ, **COMPILES}, "stdout": subprocess.PIPE, "text": True}
    with subprocess.Popen(words, **given) as process:
        try:
            yield ready(process)
        finally:
            process.terminate()
            check_ending(process.wait(600), words)


def served(folder, connections=1):
    """Runs `tpmsim serve` with the image in a folder, and yields the path of its socket."""
    path = f"{folder}/socket"
    words = f"serve --socket {path} --image {folder}/image --entropy /dev/urandom --locality 0"
    words += f" --connections {connections}"

    def ready(process):
        while not os.path.exists(path):
            assert process.poll() is None, f"{words} ends before it serves"
            time.sleep(0.001)
        return path

    return running(program_found(), *words.split(), ready=ready)


def check_ending(status, words):
    assert status in (0, -signal.SIGTERM), f"{words} ends with a fault"


def address_from(output):
    """Reads the host and the port that a server of Microsoft's protocol prints."""
    host, port = output.readline().split()
    return host, int(port)


def simulator(*words):
    """Runs a server of Microsoft's protocol, and yields its address."""
    program = SIMULATOR, "--port", "0", *words
    return running(*program, ready=lambda process: address_from(process.stdout))
