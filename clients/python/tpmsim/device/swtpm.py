"""A device that speaks swtpm's protocol: a data channel for commands, and a control channel for
everything else.
"""

import shutil
import subprocess
import tempfile
import time
from typing import Iterable, Self

from tpmsim.device.base import DeviceEnded, Unsupported
from tpmsim.device.in_step import InStep
from tpmsim.device.served import Address, Connection, LocatedDevice
from tpmsim.standard import CC, frames, handle_kinds, number, RH_PLATFORM, SHA1, SHA256

# Requests of the control channel (swtpm's tpm_ioctl.h).
INIT, SET_LOCALITY, GET_BLOB, SET_BLOB, STOP = 2, 5, 12, 13, 14

# The parts of the state: permanent, volatile, and the state that a shutdown saved.
BLOBS = PERMANENT, VOLATILE, SAVED = 1, 2, 3
NO_BLOB = 0x800

# The command that selects the PCR banks, and two of these banks, which tpmsim does not have.
PCR_ALLOCATE, SHA384, SHA512 = 0x12B, 0x000C, 0x000D
STARTUP, SHUTDOWN = (frames.command(it, number(0, 2)) for it in (CC.Startup, CC.Shutdown))


class SwtpmDevice(InStep, LocatedDevice):
    """A device that speaks swtpm's protocol, at the addresses of its two channels. Connecting does
    not switch the device on or off. An answer that takes longer than `seconds` raises TimeoutError.

    >>> SwtpmDevice("/nowhere", "/nowhere.ctrl")
    Traceback (most recent call last):
        ...
    FileNotFoundError: [Errno 2] No such file or directory
    """

    def __init__(self, data: Address, control: Address, seconds: float = 60) -> None:
        super().__init__()
        self.told_locality = 0
        self.control = Connection(control, seconds)
        try:
            self.data = Connection(data, seconds)
        except OSError:
            self.control.close()
            raise

    def asked(self, request: int, argument: bytes) -> int:
        """Sends a request on the control channel, and returns its result code."""
        return self.control.send(number(request, 4) + argument).number()

    def tell(self, request: int, argument: bytes = b"") -> None:
        """Sends a request on the control channel; raises DeviceEnded if it is refused."""
        told = self.asked(request, argument)
        if told:
            raise DeviceEnded(f"the control channel refuses request {request} with {told:#x}")

    def exchange(self, buffer: bytes) -> bytes:
        """Sends a command, and returns the response."""
        return self.whole(lambda: self.answer(buffer))

    def answer(self, buffer: bytes) -> bytes:
        """Sends the locality if it changed, then a command; returns the response."""
        if self.locality != self.told_locality:
            self.tell(SET_LOCALITY, number(self.locality, 1))
            self.told_locality = self.locality
        return self.data.send(buffer).response()

    def power_cycle(self) -> None:
        self.whole(lambda: self.begin_again([]))
        self.events.append("power")

    def begin_again(self, blobs: Iterable[tuple[int, bytes]]) -> None:
        """Power-cycles the device and sets its state to these parts."""
        self.tell(STOP)
        for kind, blob in blobs:
            if blob:
                asked = number(0, 4) + number(kind, 4) + number(len(blob), 4)
                self.tell(SET_BLOB, asked + blob)
        self.tell(INIT, number(0, 4))

    def save(self) -> bytes:
        """Returns swtpm's blob with the state that survives a loss of power."""
        return self.whole(lambda: self.blob(PERMANENT))

    def blob(self, kind: int) -> bytes:
        """Returns a part of swtpm's state."""
        text, size = b"", 1
        while size:
            told = self.asked(GET_BLOB, number(0, 4) + number(kind, 4) + number(len(text), 4))
            _, whole, size = (self.control.number() for _ in range(3))
            if told not in (0, NO_BLOB):
                raise DeviceEnded(f"blob {kind} is refused with {told:#x}")
            text += self.control.receive(size)
            if len(text) >= whole:
                break
        return text

    def snapshot(self) -> object:
        blobs = self.whole(lambda: [(kind, self.blob(kind)) for kind in BLOBS])
        return self.at, tuple(self.events), blobs

    def restore(self, snapshot: object) -> None:
        if not isinstance(snapshot, tuple):
            raise Unsupported("swtpm restores its own snapshots, and no state text")
        place, events, blobs = snapshot
        self.whole(lambda: self.begin_again(blobs))
        self.at, self.events = place, list(events)

    def hang_up(self) -> None:
        self.data.close()
        self.control.close()


class StartedSwtpm(SwtpmDevice):
    """Starts the program swtpm with a new device, which runs until `close`; raises
    FileNotFoundError if there is no such program.
    """

    def __init__(self, program: str = "swtpm", seconds: float = 60) -> None:
        if not shutil.which(program):
            raise FileNotFoundError(f"there is no {program}")
        self.program, self.folder = program, tempfile.TemporaryDirectory()
        data, control = (f"{self.folder.name}/{it}" for it in ("data", "control"))
        words = f"socket --tpm2 --terminate --tpmstate dir={self.folder.name}".split()
        words += ["--flags", "not-need-init"]
        words += ["--server", f"type=unixio,path={data}", "--ctrl", f"type=unixio,path={control}"]
        nothing, is_begun = subprocess.DEVNULL, False
        self.process = subprocess.Popen([program, *words], stdout=nothing, stderr=nothing)
        try:
            self.begin(data, control, seconds)
            is_begun = True
        finally:
            if not is_begun:
                self.end()

    def begin(self, data: str, control: str, seconds: float) -> None:
        """Waits until swtpm accepts connections, for at most `seconds`."""
        until = time.monotonic() + seconds
        while not self.is_connected(data, control, seconds):
            if self.process.poll() is not None or time.monotonic() > until:
                raise DeviceEnded(f"{self.program} does not begin to serve")
            time.sleep(0.001)
        self.allocate()

    def is_connected(self, data: str, control: str, seconds: float) -> bool:
        """Returns whether a connection to swtpm could be made."""
        try:
            super().__init__(data, control, seconds)
        except (FileNotFoundError, ConnectionRefusedError, BlockingIOError):
            return False
        return True

    def allocate(self) -> None:
        """Selects the banks of tpmsim's device, SHA-1 and SHA-256, and sets resetCount to 0."""
        banks = *((it, handle_kinds.PCRS) for it in (SHA1, SHA256)), (SHA384, ()), (SHA512, ())
        allocating = frames.on_handle(PCR_ALLOCATE, RH_PLATFORM, frames.selection(*banks))
        clearing = frames.on_handle(CC.Clear, RH_PLATFORM)
        for buffer in (STARTUP, clearing, allocating, SHUTDOWN):
            if any(self.exchange(buffer)[6:10]):
                raise DeviceEnded("the banks of PCRs cannot be chosen")
        self.power_cycle()
        self.events.clear()

    def end(self) -> None:
        """Ends swtpm, and removes its folder."""
        self.process.terminate()
        self.process.wait()
        self.folder.cleanup()

    def close(self) -> None:
        super().close()
        self.end()

    def __enter__(self) -> Self:
        return self
