"""Runs swtpm many times, and makes a different call on its state files fail each time. swtpm uses
this repository's libtpms.so.0:

    python3 swtpm_states.py FOLDER SHIM SHARE [WORD]

FOLDER is made by `hosts/build.sh libtpms`, and SHIM is the library of failing.c. Only one in every
SHARE runs is made. With WORD, only runs whose labels contain WORD are made. In each run swtpm has
to do some operations, and one call on a file in its folder has a fault from VARIANTS. Then swtpm is
started again without a fault. Its device must have executed the answered operations, and may have
executed the others. If there is no device, swtpm or the library must report why. Standard error
describes what is wrong, and reports the number of runs, and of runs without a device.
"""

import contextlib
import os
import pathlib
import subprocess
import sys
import time
from dataclasses import dataclass, replace
from typing import Iterator, Sequence

from tests.common.faults import Failing, Fault, said, sweep
from tests.keeping.counted import BEGIN, COMMANDS, Counted, DEFINE, INCREMENT, NOTHING, POWER, READ
from tests.keeping.counted import STARTUP, State, SUSPEND
from tests.keeping.hosts import OnDevice, Refused
from tests.keeping.trials import check_all, Checked, one_line, Start, state_of, Told
from tpmsim.device import SwtpmDevice
from tpmsim.standard import number

SECONDS = 600
# Requests of the control channel, and the flag of INIT that removes the volatile state after it is
# resumed. QEMU sends this flag when it resumes a guest.
INIT, SHUTDOWN, STORE_VOLATILE = 2, 3, 10
REMOVES_VOLATILE = 1
# TPM_RC_FAILURE is the response to a command that could not be saved.
FAILURE = bytes.fromhex("80010000000a00000101")


class Swtpm(OnDevice):
    """swtpm, with the library in one folder and its state files in another. Its sockets and its log
    are next to the folder with the state files.
    """

    def __init__(self, library: pathlib.Path, folder: pathlib.Path, told: dict[str, str]) -> None:
        self.library, self.folder, self.told = library, folder, told
        self.log = folder.with_suffix(".log")
        self.process: subprocess.Popen[bytes] | None = None

    @property
    def is_running(self) -> bool:
        return self.process is not None and self.process.poll() is None

    @property
    def opened(self) -> SwtpmDevice:
        if not isinstance(self.device, SwtpmDevice):
            raise Refused("there is no connection")
        return self.device

    def start(self) -> None:
        """Starts swtpm, and connects to it."""
        data, control = (str(self.folder.with_suffix(it)) for it in (".data", ".control"))
        self.log.unlink(missing_ok=True)
        words = ["swtpm", "socket", "--tpm2", "--tpmstate", f"dir={self.folder}"]
        words += ["--server", f"type=unixio,path={data}", "--ctrl", f"type=unixio,path={control}"]
        words += ["--seccomp", "action=none", "--log", f"file={self.log},level=1"]
        told, nothing = {"LD_LIBRARY_PATH": str(self.library), **self.told}, subprocess.DEVNULL
        self.process = subprocess.Popen(
            words, env={**os.environ, **told}, stdout=nothing, stderr=nothing
        )
        until = time.monotonic() + SECONDS
        while self.device is None:
            if not self.is_running or time.monotonic() > until:
                raise Refused(f"swtpm does not serve: {self.logged}")
            with contextlib.suppress(FileNotFoundError, ConnectionRefusedError, BlockingIOError):
                self.device = SwtpmDevice(data, control, SECONDS)
            time.sleep(0.001)

    @property
    def logged(self) -> str:
        return one_line(self.log.read_text("utf8")) if self.log.exists() else ""

    def tell(self, request: int, argument: bytes = b"") -> None:
        with self.refusing():
            code = self.opened.whole(lambda: self.opened.asked(request, argument))
        if code:
            raise Refused(f"request {request} is refused with {code:#x}")

    def does(self, act: str, is_resumed: bool = False) -> bytes:
        """Performs an operation. If the operation is a command, returns its response."""
        if act == BEGIN:
            self.start()
            self.tell(INIT, number(REMOVES_VOLATILE if is_resumed else 0, 4))
        elif act == SUSPEND:
            self.tell(STORE_VOLATILE)
        elif act == POWER:
            self.power()
        else:
            return self.execute(COMMANDS[act])
        return b""

    def close(self) -> tuple[int, str]:
        """Ends swtpm with its control channel, or with a signal if there is no connection. Returns
        its status.
        """
        assert self.process is not None
        try:
            self.tell(SHUTDOWN)
        except Refused:
            self.process.terminate()
        if self.device is not None:
            self.device.close()
        try:
            return self.process.wait(SECONDS), ""
        except subprocess.TimeoutExpired:
            self.process.kill()
            self.process.wait()
            raise Refused("swtpm does not end") from None


@dataclass(frozen=True)
class SwtpmStart(Start):
    """The folder that swtpm begins with, and the state of its device, which may be suspended."""

    is_suspended: bool = False

    def put(self, folder: str | pathlib.Path) -> None:
        super().put(folder)
        pathlib.Path(folder).mkdir(exist_ok=True)


def play(swtpm: Swtpm, script: Sequence[str], told: Told, is_resumed: bool) -> None:
    """Makes swtpm perform the operations one by one, until one fails because swtpm has ended."""
    for act in script:
        told.asks(act)
        try:
            response = swtpm.does(act, is_resumed)
        except Refused as fault:
            told.ends(f"refused ({one_line(fault)})")
        else:
            if response != FAILURE:
                told.answers(response)
                continue
            told.ends("failure")
        if act in (BEGIN, POWER) or not swtpm.is_running:
            return


def states_after(told: Told, start: SwtpmStart) -> set[State]:
    """Returns the states that the device may have when swtpm is started again."""
    running = told.counted.states
    cycled = {replace(it, is_started=False) for it in running}
    if f"{SUSPEND}=None" in told.acts:
        return running
    may_be_suspended = start.is_suspended or any(it.startswith(SUSPEND) for it in told.acts)
    return running | cycled if may_be_suspended else cycled


def seen(swtpm: Swtpm) -> State:
    """Starts swtpm, and returns the state of its device."""
    swtpm.does(BEGIN)
    return state_of(swtpm.does)


@dataclass
class Case(Checked):
    """The folder that swtpm begins with, and the operations that it must do. `without` is the number
    of runs that left no device.
    """

    library: pathlib.Path
    room: pathlib.Path
    shim: Failing
    start: SwtpmStart
    script: Sequence[str]
    without: int = 0

    @property
    def label(self) -> str:
        return f"swtpm, {self.start.label}"

    def tries(self, fault: Fault) -> tuple[str, str]:
        """Returns the call that failed, and a description of what is wrong. If there is no device,
        logs the reason to standard error.
        """
        folder = self.room / "state"
        self.start.put(folder)
        environment = {**self.shim.environment(fault), "FAILING_IN": str(folder)}
        swtpm, again = Swtpm(self.library, folder, environment), Swtpm(self.library, folder, {})
        told, start = Told(Counted([self.start.state])), self.start
        try:
            play(swtpm, (BEGIN, *self.script), told, start.is_suspended)
            swtpm.close()
        except Refused as refusal:
            told.strange.append(str(refusal))
        met, acts, states = self.shim.met(), " ".join(told.acts), states_after(told, start)
        try:
            state = seen(again)
        except Refused as refusal:
            self.without += 1
            if not told.strange:
                said(f"{self.label}: {fault}, {met}: {one_line(refusal)}, {again.logged}: {acts}")
        else:
            if state not in states:
                told.strange.append(f"{state} is none of {sorted(states)}")
        finally:
            again.close()
        wrong = "; ".join(told.strange)
        return met, wrong and f"{wrong}: {acts}"

    def runs(self, share: int) -> Iterator[str]:
        return sweep(self.tries, share)

    def check(self, share: int) -> tuple[int, int]:
        runs, wrongs = super().check(share)
        said(f"{self.label}: {runs} runs, {self.without} without a device")
        return runs, wrongs


def made(library: pathlib.Path, folder: pathlib.Path, is_suspended: bool) -> State:
    """Makes a device that has counted to 2, and suspends it or ends swtpm."""
    folder.mkdir()
    swtpm = Swtpm(library, folder, {})
    acts = (BEGIN, STARTUP, DEFINE, INCREMENT, INCREMENT, *([SUSPEND] * is_suspended))
    for act in acts:
        swtpm.does(act)
    swtpm.close()
    return State(True, is_suspended, True, 2)


def cases(library: pathlib.Path, room: pathlib.Path, shim: Failing) -> Iterator[Case]:
    kept, left = room / "kept", room / "left"
    counts, cycles = (INCREMENT, READ), (POWER, STARTUP, INCREMENT, READ)
    ended = SwtpmStart("a kept device", made(library, kept, False), kept)
    suspended = SwtpmStart("a suspended one", made(library, left, True), left, True)
    new = SwtpmStart("a new one", NOTHING)
    yield Case(library, room, shim, ended, (STARTUP, *counts, *cycles))
    yield Case(library, room, shim, new, (STARTUP, DEFINE, *counts, SUSPEND))
    yield Case(library, room, shim, suspended, (*counts, SUSPEND))


if __name__ == "__main__":
    check_all(cases, pathlib.Path(sys.argv[1]).resolve(), *sys.argv[2:])
