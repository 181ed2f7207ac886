"""Runs a client once, with a TPM that refuses at most one command."""

from __future__ import annotations

import contextlib
import os
import select
import shutil
import signal
import subprocess
import tempfile
import time
from dataclasses import dataclass, field
from typing import IO, Iterator

from tpmsim.refuse.finding import Event
from tpmsim.sweep.refusals import Refusal
from tpmsim.sweep.server import Server
from tpmsim.sweep.tpm import Sent, SweptTpm

# How much of a client's output is kept, in bytes.
KEPT_BYTES = 65_536


@dataclass(frozen=True)
class Settings:
    """How each run is made: the client's words, the state text of its TPM, the seconds after which
    it hangs, and the folder of which each run gets a copy, if any.
    """

    words: tuple[str, ...]
    text: bytes
    seconds: float = 30
    copied: str | None = None


@dataclass(frozen=True)
class Ran:
    """What a client did in a run. `status` is negative after a signal; `hangs` says that it had not
    ended in time. `left` has the handles of what it left loaded. `trouble` says why its command
    could not be refused.
    """

    status: int
    output: bytes
    errors: bytes
    seconds: float
    hangs: bool
    sent: tuple[Sent, ...]
    left: frozenset[int]
    trouble: str = ""
    events: list[tuple[bytes, Event]] = field(default_factory=list)

    @property
    def names(self) -> list[str]:
        """The names of the commands that the client sent."""
        return [it.name for it in self.sent]


def run(settings: Settings, refusal: Refusal | None = None, keeps: bool = False) -> Ran:
    """Runs the client; raises OSError if it cannot be started."""
    tpm = SweptTpm(settings.text, refusal, keeps)
    with contextlib.closing(tpm):
        with Server(tpm.execute, tpm.power_cycle) as server:
            status, hangs, seconds, texts = ran(settings, server.environment)
        left = tpm.left()
    is_met = refusal is None or tpm.met is not None
    trouble = tpm.trouble or ("" if is_met else "the client did not send this command")
    return Ran(status, *texts, seconds, hangs, tuple(tpm.sent), left, trouble, tpm.events)


def ran(
    settings: Settings, environment: dict[str, str]
) -> tuple[int, bool, float, tuple[bytes, bytes]]:
    """Returns the status of the client, whether it hung, its seconds, and its output and errors."""
    with (
        copy_of(settings.copied) as folder,
        tempfile.TemporaryFile() as output,
        tempfile.TemporaryFile() as errors,
    ):
        begun = time.monotonic()
        status, hangs = waited(settings, environment, folder, output, errors)
        seconds = time.monotonic() - begun
        texts = kept(output), kept(errors)
    return status, hangs, seconds, texts


@contextlib.contextmanager
def copy_of(folder: str | None) -> Iterator[str | None]:
    """Yields a copy of a folder, which is removed afterwards; None if there is no folder."""
    if folder is None:
        yield None
        return
    with tempfile.TemporaryDirectory(prefix="tpmsim-sweep-") as beside:
        copy = os.path.join(beside, "copy")
        shutil.copytree(folder, copy, symlinks=True)
        yield copy


def waited(
    settings: Settings,
    environment: dict[str, str],
    folder: str | None,
    output: IO[bytes],
    errors: IO[bytes],
) -> tuple[int, bool]:
    """Starts the client in a session of its own, waits for it, and ends what it left running."""
    process = subprocess.Popen(
        settings.words,
        stdin=subprocess.DEVNULL,
        stdout=output,
        stderr=errors,
        cwd=folder,
        env={**os.environ, **environment},
        start_new_session=True,
    )
    try:
        hangs = not has_ended(process.pid, settings.seconds)
    finally:
        # The client is not reaped yet, so that the number still names its own group.
        os.killpg(process.pid, signal.SIGKILL)
        status = process.wait()
    return status, hangs


def has_ended(process: int, seconds: float) -> bool:
    """Returns whether a child ends within these seconds; does not reap it."""
    place = os.pidfd_open(process)
    try:
        return bool(select.select([place], [], [], seconds)[0])
    finally:
        os.close(place)


def kept(file: IO[bytes]) -> bytes:
    """Returns the front of a file that a client wrote."""
    file.seek(0)
    return file.read(KEPT_BYTES)
