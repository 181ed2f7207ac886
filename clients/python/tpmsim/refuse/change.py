"""A named change of a device's state."""

from __future__ import annotations

from dataclasses import dataclass
from typing import Callable, Iterator

from tpmsim.model import general
from tpmsim.model.completion import CONTEXT_SAVE
from tpmsim.model.machine import Model
from tpmsim.model.policy_state import Session
from tpmsim.standard import CC, Entry, Fields, HEADER_BYTES, Short


@dataclass(frozen=True)
class Change:
    """A change of a state, and words that say what is changed. `act` changes a model."""

    words: str
    act: Callable[[Model], None]

    def then(self, other: Change) -> Change:
        """Returns the change that does both."""

        def both(model: Model) -> None:
            self.act(model)
            other.act(model)

        return Change(f"{self.words}, and {other.words}", both)


@dataclass(frozen=True)
class Asked:
    """A command before it is executed, as far as changes depend on it: its number, its handles, its
    entries, and its parameters, which may be encrypted.
    """

    code: int
    handles: tuple[int, ...]
    entries: tuple[Entry, ...]
    parameters: bytes

    @classmethod
    def of(cls, buffer: bytes, model: Model) -> Asked:
        """Returns the command in a buffer. It has no handles if the device refuses its form."""
        number = int.from_bytes(buffer[6:10], "big")
        try:
            command = general.decode(buffer, model)
        except general.Refusal:
            return cls(number, (), (), buffer[HEADER_BYTES:])
        handles, entries = tuple(command.handles), tuple(command.entries or ())
        return cls(number, handles, entries, command.parameters)

    @property
    def named(self) -> list[int]:
        """The handles of the command, and the one in the parameters of a command that flushes or
        saves an entity.
        """
        more = self.number_at(0, 4) if self.code in (CC.FlushContext, CONTEXT_SAVE) else None
        return list(dict.fromkeys([*self.handles, *filter(None, [more])]))

    def sessions(self, model: Model) -> Iterator[int]:
        """Yields the handle of each session that the command uses or names, once."""
        used = [it.handle for it in self.entries]
        yield from dict.fromkeys(it for it in (*self.named, *used) if it in model.sessions)

    def authorizing(self, model: Model) -> list[Session]:
        """Returns the sessions of the entries."""
        return [model.sessions[it.handle] for it in self.entries if it.handle in model.sessions]

    def number_at(self, skipped: int, size: int) -> int | None:
        """Returns the number in the parameters after `skipped` sized buffers; None if they end
        before.
        """
        fields = Fields(self.parameters)
        try:
            for _ in range(skipped):
                fields.sized()
            return fields.number(size)
        except Short:
            return None


def hexed(handle: int) -> str:
    """Returns a handle as people write it."""
    return f"{handle:08x}"


# An authorization value, a digest and a key that nothing else has.
OTHER_VALUE = b"another value"
