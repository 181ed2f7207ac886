"""Devices whose locality, time and random bytes are set by the caller."""

from __future__ import annotations

import hashlib
import os
import pathlib
from typing import Callable, cast, ClassVar, Self, TypeVar

from tpmsim.device.base import Answered, BadImage, BadState, checked_locality, DeviceEnded
from tpmsim.device.base import Executed, Snapshot, Transport, Unsupported
from tpmsim.faults import TpmsimError
from tpmsim.model import image as images, state_text
from tpmsim.model.completion import Completion
from tpmsim.model.machine import MANUFACTURED, Model
from tpmsim.model.state_text import Layer
from tpmsim.refuse.finding import Event
from tpmsim.refuse.pending import Pending
from tpmsim.standard import Profile
from tpmsim.standard.aes_tables import encrypt_block

RANDOM_BYTES = 256
MOST_MILLISECONDS = 2**32 - 1

Path = str | os.PathLike[str]
Done = TypeVar("Done")


class NothingReplaced(TpmsimError, MemoryError):
    """There is not enough memory for the device in a state text; the previous device is unchanged."""


class Device(Transport):
    """A fresh device that was just powered on, or the device that an image contains. If the device
    comes from an image, it writes its changes to the image's file. The device runs in this process
    if the library is found, and otherwise in a child process. Its seeds and its random bytes are
    fresh; if you pass a seed, they are the same in each run.

    >>> from tpmsim.caller import Caller
    >>> with Device(seed=b"mine") as device:
    ...     tpm = Caller(device)
    ...     tpm.start_up()
    ...     len(tpm.call("GetRandom", bytesRequested=4)["randomBytes"])
    4
    """

    # The class that `Device(..)` instantiates; the package sets it.
    preferred: ClassVar[type[Device]]

    # The image or the state text from which the events start; empty for a script's device.
    begun = b""

    # False while a call changes the device, and afterwards if the call did not complete.
    is_whole = True

    def __new__(cls, *given: object, **named: object) -> Self:
        return cast(Self, super().__new__(Device.preferred if cls is Device else cls))

    def __init__(self, image: Path | None = None, seed: bytes | None = None) -> None:
        super().__init__()
        self.image = None if image is None else pathlib.Path(image)
        self.seed, self.drawings, self.at, self.elapsed = seed, 0, 0, 0
        self.pending = Pending()

    @classmethod
    def open(cls, image: bytes, seed: bytes | None = None) -> Self:
        """Opens the device from an image, as after a power cycle; raises BadImage if the bytes are
        not an image.

        >>> with Device() as device, Device.open(device.save()) as other:
        ...     other.save() == device.save()
        True
        """
        device = cls(seed=seed)
        try:
            device.begin(image)
        except BadImage:
            device.close()
            raise
        device.begun = image
        return device

    @property
    def trace(self) -> list[str]:
        """The events so far as lines of a script. If the device started from an image or a state
        text, unlike the device of a script, the first line is a comment with that image or state
        text.
        """
        word = "state" if self.begun.startswith(state_text.MAGIC) else "image"
        begun = [f"# {word} {self.begun.hex()}"] if self.begun else []
        return begun + super().trace

    def look_whole(self) -> None:
        """Raises DeviceEnded if an interrupted call left the device half changed."""
        if not self.is_whole:
            raise DeviceEnded("a call did not end, and left the device halfway; `restore` mends it")

    def to_its_end(self, act: Callable[[], Done]) -> Done:
        """Runs an action; if the action does not complete, `is_whole` stays False."""
        was_whole, self.is_whole = self.is_whole, False
        done = act()
        self.is_whole = was_whole
        return done

    def begin(self, image: bytes) -> None:
        """Replaces this device with the one in an image."""
        raise NotImplementedError

    def state(self) -> bytes:
        """Returns the state text of the device."""
        raise NotImplementedError

    def resume(self, text: bytes) -> None:
        """Replaces this device with the one in a state text. Raises BadState if `text` is not a
        state text. If it raises BadState, Unsupported or NothingReplaced, the device is unchanged.
        """
        raise NotImplementedError

    def answer(self, buffer: bytes, locality: int, elapsed: int, random: bytes) -> Executed:
        """Executes a command with its locality, time and random bytes."""
        raise NotImplementedError

    def cycle(self) -> None:
        """Power-cycles the device."""
        raise NotImplementedError

    def drawn(self) -> bytes:
        """Returns random bytes for the next command. With a seed, they are the same in each run."""
        self.drawings += 1
        if self.seed is None:
            return os.urandom(RANDOM_BYTES)
        return hashlib.shake_256(self.seed + b"%d" % self.drawings).digest(RANDOM_BYTES)

    def wait(self, milliseconds: int) -> None:
        """Lets milliseconds pass before the next command; raises ValueError for more than
        4,294,967,295.

        >>> with Device() as device:
        ...     tpm = Caller(device)
        ...     tpm.start_up()
        ...     device.wait(60_000)
        ...     tpm.call("ReadClock")["currentTime"].time
        60000
        """
        if not 0 <= milliseconds <= MOST_MILLISECONDS - self.elapsed:
            raise ValueError(f"at most {MOST_MILLISECONDS} milliseconds pass before a command")
        self.elapsed += milliseconds
        self.events.append(f"wait {milliseconds}")

    @property
    def locality(self) -> int:
        """The locality of the next commands, 0 to 4, initially 0; another number raises ValueError.

        >>> with Device() as device:
        ...     device.locality = 3
        ...     device.locality
        3
        """
        return self.at

    @locality.setter
    def locality(self, number: int) -> None:
        self.at = checked_locality(number)
        self.events.append(f"loc {number}")

    def execute(self, buffer: bytes) -> Answered:
        """Executes any bytes, and returns the response and the check that refused them, or `ok`.

        >>> with Device() as device:
        ...     device.execute(bytes.fromhex("80010000000c000001440000"))
        Answered(response=b'\\x80\\x01\\x00\\x00\\x00\\n\\x00\\x00\\x00\\x00', check='ok')
        """
        self.look_whole()
        random = self.drawn()
        if self.pending.has(buffer):
            self.change_for(buffer, random)
        event = self.answer(buffer, self.at, self.elapsed, random)
        self.elapsed = 0
        self.events.append(event)
        return Answered(event.response, event.check)

    def refuse_next(self, command: str, check: str, code: int | str | None = None) -> None:
        self.pending.add(command, check, code)

    def change_for(self, buffer: bytes, random: bytes) -> None:
        """Changes the state so that the command meets the refusal that is pending for it. If that
        needs a change, `trace` then starts with the changed state.
        """
        event = Event(buffer, self.at, random, self.elapsed)
        found = self.pending.met(self.state(), event)
        if found is not None and found.words:
            self.restore(Snapshot(found.text, self.at, self.elapsed, begun=found.text))

    def power_cycle(self) -> None:
        """Power-cycles the device, which then expects TPM2_Startup.

        >>> with Device() as device:
        ...     tpm = Caller(device)
        ...     tpm.start_up()
        ...     device.power_cycle()
        ...     tpm.start_up()
        ...     tpm.call("ReadClock")["currentTime"].resets
        2
        """
        self.look_whole()
        self.cycle()
        self.events.append("power")

    def snapshot(self) -> Snapshot:
        """Returns the whole state of the device, with sessions and objects, as its state text. The
        bytes may be stored in a file, and restored by another process.

        >>> with Device() as device, Device() as other:
        ...     tpm = Caller(device)
        ...     tpm.start_up()
        ...     before = device.snapshot()
        ...     session = tpm.session()
        ...     device.restore(before)
        ...     other.restore(bytes(before))
        ...     device.snapshot() == other.snapshot() == before
        True
        """
        self.look_whole()
        return Snapshot(self.state(), self.at, self.elapsed, self.begun, self.events)

    def restore(self, snapshot: object) -> None:
        """Restores the state in a snapshot of any device, or in a state text. The events are then
        those of the snapshot; a plain state text, or a kept device's snapshot, has no events.
        Raises BadState for other bytes, which change nothing, and TypeError for anything else.

        >>> with Device() as device:
        ...     before = device.snapshot()
        ...     Caller(device).start_up()
        ...     device.restore(before)
        ...     Caller(device).start_up()
        ...     device.restore(before[:-1])
        Traceback (most recent call last):
            ...
        tpmsim.device.base.BadState: Length
        """
        told = Snapshot.of(snapshot)
        was_whole, self.is_whole = self.is_whole, False
        try:
            self.resume(told)
        except (BadState, NothingReplaced, Unsupported):
            self.is_whole = was_whole
            raise
        self.begun, self.events = bytes(told), []
        if told.begun is not None:
            self.begun, self.events = told.begun, list(told.events)
        self.at, self.elapsed = told.locality, told.elapsed
        self.is_whole = True

    def write(self, path: Path) -> None:
        """Writes the trace as a script; raises OSError if it cannot be written.

        >>> import tempfile
        >>> with Device() as device, tempfile.TemporaryDirectory() as folder:
        ...     Caller(device).start_up()
        ...     device.write(f"{folder}/script.tpm")
        ...     with open(f"{folder}/script.tpm", encoding="ascii") as script:
        ...         script.read().splitlines()[-1]
        '# Startup L0 +0 ok 00000000'
        """
        pathlib.Path(path).write_text("\n".join(self.trace) + "\n", "ascii")


class ModelDevice(Device):
    """The device in plain Python, in this process, manufactured with the bytes 00 to ff; or a given
    model that was just powered on. Its trace is a script too, although `tpmsim` did not execute
    it.

    >>> with ModelDevice() as device:
    ...     device.execute(b"").check
    'G1'
    """

    def __init__(self, model: Model | None = None, seed: bytes | None = None) -> None:
        super().__init__(seed=seed)
        self.model = model or Model(MANUFACTURED, encrypt_block)
        self.layer = Layer()  # this device can only remove what the layer remembers
        self.begun = b"" if model is None else self.save()

    def begin(self, image: bytes) -> None:
        try:
            self.model, self.layer = images.open_image(image, encrypt_block, Profile), Layer()
        except images.Fault as fault:
            raise BadImage(str(fault)) from None

    def state(self) -> bytes:
        return state_text.state_text(self.model, self.layer)

    def resume(self, text: bytes) -> None:
        try:
            self.model, layer = state_text.open_state(text)
        except images.Fault as fault:
            raise BadState(str(fault)) from None
        except MemoryError:
            raise NothingReplaced from None
        self.layer = layer or Layer()

    def answer(self, buffer: bytes, locality: int, elapsed: int, random: bytes) -> Executed:
        """Executes a command on the model."""
        outcome = self.to_its_end(lambda: self.model.execute(buffer, locality, random, elapsed))
        self.forget()
        row = outcome.row
        return Executed(buffer, outcome.response, locality, elapsed, random, row.check, row.code)

    def cycle(self) -> None:
        """Power-cycles the model."""
        self.to_its_end(self.model.power_cycle)
        self.forget()

    def forget(self) -> None:
        """Forgets what ended with the latest event: contexts of sessions, and sequence objects."""
        layer = Completion.of(self.layer)
        layer.forget(self.model)
        self.layer = layer.numbers

    def save(self) -> bytes:
        return images.image(self.model)
