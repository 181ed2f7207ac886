"""A device that is kept in a folder (docs/SERVE.md), through the C host in libtpmsim-kept.so.0.

Python runs a signal handler only after a call of the host has returned, so an interrupt never
leaves a call half done. A call takes a handle out of a list, and puts it back. So an interrupt or a
fork leaves no handle in the list that a call has not finished with.
"""

import contextlib
import ctypes
import functools
import os
import pathlib
import threading
import warnings
from typing import Callable

from tpmsim.device.base import Answered, BadImage, BadState, DeviceEnded, Executed, Snapshot
from tpmsim.device.forks import inode, LOCKS, process
from tpmsim.device.library import AnsweredInC, beside, CHECKS, IMAGE_FAULTS, library, LibraryDevice
from tpmsim.device.library import NO_MEMORY, RESPONSE_BYTES, STATE_FAULTS, TEXT_BYTES
from tpmsim.device.served import LocatedDevice
from tpmsim.device.told import Path, RANDOM_BYTES
from tpmsim.refuse.finding import Event
from tpmsim.refuse.pending import Pending

NAME, LOCK_NAME = "libtpmsim-kept.so.0", "lock"
REASON_BYTES, MOST_KEPT = 4608, 99
FORCE_NEVER, FORCE_POWER = 0, 1


class Options(ctypes.Structure):
    """The struct tpmsim_kept_options of hosts/kept/tpmsim_kept.h."""

    _fields_ = [
        *((name, ctypes.c_char_p) for name in ("folder", "image", "random")),
        *((name, ctypes.c_uint32) for name in ("random_size", "keep")),
        *((name, ctypes.c_uint8) for name in ("force", "is_there", "cuts")),
    ]


@functools.cache
def host() -> ctypes.CDLL:
    """Loads the C host, once; raises OSError if it is not next to the library."""
    library()
    found, byte, size = ctypes.CDLL(beside(NAME)), ctypes.c_uint8, ctypes.c_size_t
    text, address = ctypes.c_char_p, ctypes.c_void_p
    for name, result, arguments in (
        ("open", byte, [address, address, address]),
        ("execute", byte, [address, text, size, byte, byte, address, address, address]),
        ("power", byte, [address, address]),
        ("snapshot", byte, [address, address, address, address]),
        ("restore", byte, [address, text, size, address]),
        ("notice", None, [address, address]),
        ("close", None, [address]),
    ):
        call = getattr(found, f"tpmsim_kept_{name}")
        call.restype, call.argtypes = result, arguments
    return found


def check(told: int, reason: str) -> None:
    """Raises an exception with the reason, unless the call succeeded."""
    if told == NO_MEMORY:
        raise MemoryError(reason)
    if told in IMAGE_FAULTS:
        raise BadImage(reason)
    if told in STATE_FAULTS:
        raise BadState(reason)
    if told:
        raise DeviceEnded(reason)


class Handle:
    """A handle of the C host, which only one call at a time may use. It is closed when nothing
    refers to it any more.
    """

    def __init__(self) -> None:
        self.host, self.holder = host(), ctypes.c_void_p()
        self.reason, self.notice = (ctypes.create_string_buffer(REASON_BYTES) for _ in range(2))
        self.address = ctypes.addressof(self.holder)

    def told(self, call: Callable[..., int], *given: object) -> tuple[int, str]:
        """Calls the host, and returns its result and its message. Warns if it cut the journal."""
        told = call(self.address, *given, self.reason)
        self.host.tpmsim_kept_notice(self.address, self.notice)
        reason, notice = os.fsdecode(self.reason.value), os.fsdecode(self.notice.value)
        if notice:
            warnings.warn(notice, RuntimeWarning)
        return told, reason

    def close(self) -> None:
        """Closes the device of this handle, if there is one."""
        self.host.tpmsim_kept_close(self.address)

    def __del__(self) -> None:
        if hasattr(self, "address"):
            self.close()


class KeptDevice(LocatedDevice):
    """The device that is kept in a folder. If the folder contains no device, a new one is made
    there. Several processes may use it at once: each executes the commands that the others added,
    and then its own. With `forces`, the name of each new or opened journal is synced to the disk.
    With `completes`, the completing layer of the library is above the device. The last `keep`
    replaced journals, 0 to 99, stay in the folder. With `cuts`, the rest of a journal from its
    first damage on is dropped; otherwise a damaged journal is refused. A forked child may use its
    parent's device, even if another thread was inside a call at the fork. Threads take turns.

    If a call fails, the message of DeviceEnded names the file and what is wrong. If the journal
    begins with bytes that are not an image or a state text, the exception is BadImage or BadState.
    If the end of a journal was cut off, a RuntimeWarning says what is missing.

    >>> import tempfile
    >>> with tempfile.TemporaryDirectory() as folder:
    ...     with KeptDevice(folder) as device:
    ...         Caller(device).start_up()
    ...     with KeptDevice(folder) as device:
    ...         len(Caller(device).call("GetRandom", bytesRequested=4)["randomBytes"])
    4
    """

    def __init__(
        self,
        folder: Path,
        forces: bool = True,
        completes: bool = False,
        keep: int = 0,
        cuts: bool = False,
    ) -> None:
        super().__init__()
        self.pending = Pending()
        self.path, self.completes = os.path.abspath(folder), completes
        path = os.fsencode(folder)
        if b"\0" in path:
            raise ValueError("embedded null byte")
        if keep not in range(MOST_KEPT + 1):
            raise ValueError(f"0 to {MOST_KEPT} journals are kept, and not {keep}")
        self.host, self.idle, self.is_closed = host(), list[Handle](), False
        self.process, self.lock = process(), threading.RLock()
        force = FORCE_POWER if forces else FORCE_NEVER
        self.options = Options(folder=path, keep=keep, force=force, cuts=cuts)
        whole = path if os.path.isabs(path) else os.path.join(os.getcwdb(), path)
        LOCKS[self] = os.path.join(os.fsdecode(whole), LOCK_NAME)
        self.idle.append(self.opened())
        self.options.folder, self.options.is_there = whole, True
        self.place = inode(os.stat(whole))

    def opened(self) -> Handle:
        """Returns a new handle."""
        handle = Handle()
        check(*handle.told(self.host.tpmsim_kept_open, ctypes.byref(self.options)))
        return handle

    def opened_again(self) -> Handle:
        """Returns another handle of this device. If another folder is now at the path, raises
        DeviceEnded.
        """
        handle = self.opened()
        if inode(os.stat(self.options.folder)) != self.place:
            raise DeviceEnded(f"{self.path}/journal is not there")
        return handle

    @property
    def turn(self) -> contextlib.AbstractContextManager[object]:
        """The lock for which threads wait, so that all of them can use one handle. It is another
        one in a forked child, where no thread may be left to release the lock.
        """
        if self.process != process():
            self.lock = threading.RLock()
            self.process = process()
        return self.lock

    def taken(self) -> Handle:
        """Takes an idle handle. If there is none, opens one: a call has ended without returning its
        handle, or this call interrupts another, or a child was forked during a call.
        """
        try:
            return self.idle.pop()
        except IndexError:
            pass  # all handles are in use
        return self.opened_again()

    def told(self, call: Callable[..., int], *given: object) -> tuple[int, str]:
        """Calls the host, and returns its result and its message."""
        if self.is_closed:
            raise ValueError("the device is closed")
        with self.turn:
            return self.in_turn(call, *given)

    def in_turn(self, call: Callable[..., int], *given: object) -> tuple[int, str]:
        """Calls the host with a handle that no other call uses."""
        handle = self.taken()
        try:
            return handle.told(call, *given)
        finally:
            if not self.is_closed:
                self.idle.append(handle)

    def ask(self, call: Callable[..., int], *given: object) -> None:
        """Calls the C host for this device; raises an exception if the call fails."""
        check(*self.told(call, *given))

    def refuse_next(self, command: str, check: str, code: int | str | None = None) -> None:
        """Makes the next command with this name of this object be refused, as on other devices. The
        changed state is restored for every process, so that no earlier context can be loaded.
        """
        self.pending.add(command, check, code)

    def change_for(self, buffer: bytes) -> None:
        """Changes the state so that the command meets the refusal that is pending for it."""
        event = Event(buffer, self.locality, completes=self.completes)
        found = self.pending.met(self.state(), event)
        if found is not None and found.words:
            self.restore(Snapshot(found.text, self.locality))

    def execute(self, buffer: bytes) -> Answered:
        if self.pending.has(buffer):
            self.change_for(buffer)
        response, answered = ctypes.create_string_buffer(RESPONSE_BYTES), AnsweredInC()
        self.ask(
            *(self.host.tpmsim_kept_execute, buffer, len(buffer), self.locality),
            *(int(self.completes), response, ctypes.byref(answered)),
        )
        told = ctypes.string_at(response, answered.size)
        self.events.append(Executed(buffer, told, self.at))
        return Answered(told, CHECKS[answered.check])

    def power_cycle(self) -> None:
        """Power-cycles the device for every process that uses it."""
        self.ask(self.host.tpmsim_kept_power)
        self.events.append("power")

    def save(self) -> bytes:
        with LibraryDevice(manufactured=bytes(RANDOM_BYTES)) as device:
            device.restore(self.state())
            return device.save()

    def snapshot(self) -> Snapshot:
        """Returns the state text of the device, with its completing layer.

        >>> import tempfile
        >>> with tempfile.TemporaryDirectory() as folder, KeptDevice(folder) as device:
        ...     before = device.snapshot()
        ...     Caller(device).start_up()
        ...     device.restore(before)
        ...     Caller(device).start_up()
        """
        return Snapshot(self.state(), self.at, events=self.events)

    def state(self) -> bytes:
        """Returns the device's state text."""
        text, size = ctypes.create_string_buffer(TEXT_BYTES), ctypes.c_size_t()
        self.ask(self.host.tpmsim_kept_snapshot, text, ctypes.byref(size))
        return ctypes.string_at(text, size.value)

    def restore(self, snapshot: object) -> None:
        """Restores a snapshot for every process that uses the device. The journal restarts from the
        snapshot. The completing layer starts again, so no earlier context can be loaded.
        """
        text = Snapshot.of(snapshot)
        told, reason = self.told(self.host.tpmsim_kept_restore, text, len(text))
        check(told, STATE_FAULTS.get(told, reason))
        self.events = list(text.events) if text.begun is None else []
        self.at = text.locality

    def journal(self) -> bytes:
        """Returns the bytes of the journal; raises OSError if it cannot be read."""
        return pathlib.Path(self.path, "journal").read_bytes()

    def close(self) -> None:
        with self.turn:
            self.is_closed = True
            while self.idle:
                self.idle.pop().close()
