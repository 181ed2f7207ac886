"""The interface of every device, in this process or elsewhere."""

from abc import ABC, abstractmethod
from dataclasses import dataclass
from types import TracebackType
from typing import Self, Sequence

from tpmsim.faults import TpmsimError
from tpmsim.standard import ALL_NUMBERED, lines, Profile


class Unsupported(TpmsimError):
    """An action that this device or its connection does not support; the message says which."""


class DeviceEnded(TpmsimError):
    """The device has ended, or is unusable; the message says why."""


class BadImage(TpmsimError):
    """Bytes that are not an image; the message is their first fault, named as in
    docs/table/image.md.
    """


class BadState(TpmsimError):
    """Bytes that are not a state text; the message is their first fault, named as in
    docs/table/state_text.md.
    """


@dataclass(frozen=True)
class Answered:
    """A response, and the check in its trace, if the device reports it: `ok`, or the check that
    refused the command.
    """

    response: bytes
    check: str | None = None


@dataclass(frozen=True, slots=True)
class Executed:
    """A command and its response. A field that is not known is None."""

    buffer: bytes
    response: bytes
    locality: int | None = None
    elapsed: int | None = None
    random: bytes | None = None
    check: str | None = None
    code: int | None = None

    @property
    def traced(self) -> str:
        """The text of the command's trace, or only the response code if the device reports no
        check.
        """
        code = self.response[6:10].hex()
        if self.check is None:
            return code
        name = ALL_NUMBERED[self.code].name if self.code else "?"
        return f"{name} L{self.locality} +{self.elapsed} {self.check} {code}"


def line_in_bytes(buffer: bytes) -> str:
    """Returns the script line that executes a buffer, in hex; for the empty buffer, only `cmd`."""
    return f"cmd {buffer.hex()}".rstrip()


def line(buffer: bytes, profile: Profile = Profile.SYMMETRIC) -> str:
    """Returns the script line that executes a buffer, in words if a line with a command of the
    profile encodes exactly these bytes. For the empty buffer the line ends in a space.
    """
    words = lines.line_of(buffer, profile)
    return f"cmd {buffer.hex()}" if words is None else f"do {words}"


def lines_told(event: str | Executed) -> list[str]:
    """Returns the lines of a script for one event."""
    if isinstance(event, str):
        return [event]
    entropy = [f"entropy {event.random.hex()}"] if event.random else []
    return [*entropy, line(event.buffer), f"# {event.traced}"]


class Snapshot(bytes):
    """A device's state text (docs/table/state_text.md), which may be stored, compared and restored
    anywhere. It also has attributes that the text does not contain: the locality of the next
    commands, the milliseconds that pass before the next command, and the events so far. `begun` is
    the image or state text from which the device started, before those events. `begun` is empty for
    the device that runs a script, and None if unknown.
    """

    locality: int
    elapsed: int
    begun: bytes | None
    events: tuple[str | Executed, ...]

    def __new__(
        cls,
        text: bytes,
        locality: int = 0,
        elapsed: int = 0,
        begun: bytes | None = None,
        events: Sequence[str | Executed] = (),
    ) -> Self:
        made = super().__new__(cls, text)
        made.locality, made.elapsed = locality, elapsed
        made.begun, made.events = begun, tuple(events)
        return made

    @classmethod
    def of(cls, given: object) -> Self:
        """Returns a snapshot unchanged, or makes one from a state text; the events then start from
        that state. Raises TypeError for anything else.
        """
        if isinstance(given, cls):
            return given
        if not isinstance(given, bytes):
            raise TypeError("a snapshot is bytes, those of a state text")
        return cls(given, begun=given)


class Transport(ABC):
    """A device, or a connection to one. A method that the device does not support raises
    Unsupported.
    """

    def __init__(self) -> None:
        self.events: list[str | Executed] = []

    def __repr__(self) -> str:
        last = [lines_told(self.events[-1])[-1].removeprefix("# ")] if self.events else []
        told = [type(self).__name__, f"events: {len(self.events)}", *(f"last: {it}" for it in last)]
        return f"<{', '.join(told)}>"

    @property
    def trace(self) -> list[str]:
        """The events so far as lines of a script, with each trace as a comment after its command.

        >>> with ModelDevice() as device:
        ...     Caller(device).start_up()
        ...     device.trace[-2:]
        ['do Startup 0', '# Startup L0 +0 ok 00000000']
        """
        return [it for event in self.events for it in lines_told(event)]

    @abstractmethod
    def execute(self, buffer: bytes) -> Answered:
        """Executes a command and returns its response; raises DeviceEnded if there is no response."""

    def wait(self, milliseconds: int) -> None:
        """Lets milliseconds pass before the next command, at most 4,294,967,295."""
        raise Unsupported("time passes as it does on the host")

    @property
    def locality(self) -> int:
        """The locality of the next commands, 0 to 4; another number raises ValueError."""
        raise Unsupported("the locality cannot be set here")

    @locality.setter
    def locality(self, number: int) -> None:
        raise Unsupported("the locality cannot be set here")

    def power_cycle(self) -> None:
        """Power-cycles the device, which then expects TPM2_Startup."""
        raise Unsupported("the power cannot be switched here")

    def save(self) -> bytes:
        """Returns the image, which contains everything that the device keeps while it has no power.

        >>> with Device() as device:
        ...     device.save()[:4]
        b'TPMI'
        """
        raise Unsupported("there is no image")

    def snapshot(self) -> object:
        """Returns the whole state of the device, with sessions and objects, for `restore`. It is a
        Snapshot if the device's state text is available.
        """
        raise Unsupported("there are no snapshots")

    def restore(self, snapshot: object) -> None:
        """Returns the device to the state of a snapshot, which may be restored any number of
        times.
        """
        raise Unsupported("there are no snapshots")

    def refuse_next(self, command: str, check: str, code: int | str | None = None) -> None:
        """Makes the next command with this name be refused by a check of the table, such as `A2`,
        and with a code, such as `LOCKOUT`, if the check has several. Just before that command, the
        least change is made to the state under which the device refuses it so. If no known change
        does this, that command raises Unrefusable instead, and is not executed.

        The device stays changed, so that a client finds a consistent one: an index that was locked
        is still locked. `snapshot` before and `restore` afterwards return to the unchanged device.

        >>> with Device() as device:
        ...     tpm = Caller(device)
        ...     tpm.start_up()
        ...     device.refuse_next("StartAuthSession", "A4")
        ...     tpm.session()
        Traceback (most recent call last):
            ...
        tpmsim.caller.entries.Refused: StartAuthSession: SESSION_MEMORY (903), by A4
        """
        raise Unsupported("a device without a state text cannot be changed")

    def close(self) -> None:
        """Closes the device, or the connection to it, as leaving a `with` block does. If the device
        has an image file, this also saves the clock to it.

        >>> device = Device()
        >>> device.close()
        """

    def __enter__(self) -> Self:
        return self

    def __exit__(
        self,
        kind: type[BaseException] | None,
        fault: BaseException | None,
        where: TracebackType | None,
    ) -> None:
        self.close()


def checked_locality(number: int) -> int:
    """Returns the locality; raises ValueError unless it is 0 to 4."""
    if number not in range(5):
        raise ValueError(f"a locality is 0 to 4, and not {number}")
    return number
