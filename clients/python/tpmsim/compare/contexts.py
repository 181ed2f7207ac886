"""Contexts of objects and sessions, and sequence objects. For this device, the completing layer
makes them; the other TPM makes its own.
"""

from __future__ import annotations

from dataclasses import dataclass
from typing import TYPE_CHECKING

from tpmsim.compare import sequence_entries
from tpmsim.device import Unsupported
from tpmsim.model.completion import Asked, asked_of, CONTEXT_LOAD, CONTEXT_SAVE, names_session
from tpmsim.model.completion import numbers_of
from tpmsim.model.sequence_commands import EVENT_SEQUENCE_COMPLETE, HASH_SEQUENCE_START, HMAC_START
from tpmsim.model.sequence_commands import SEQUENCE_COMPLETE, SEQUENCE_UPDATE
from tpmsim.standard import command, HEADER_BYTES, number

if TYPE_CHECKING:
    from tpmsim.compare.translation import Translation


# The commands that start a sequence, and the number of handles of each command on sequences.
STARTS = HASH_SEQUENCE_START, HMAC_START
HANDLES = {
    **{HMAC_START: 1, SEQUENCE_UPDATE: 1, SEQUENCE_COMPLETE: 1},
    **{EVENT_SEQUENCE_COMPLETE: 2, HASH_SEQUENCE_START: 0},
}


@dataclass(frozen=True)
class Kept:
    """A context of the other TPM, and what is known about its object, sequence or session."""

    text: bytes
    name: bytes | None
    auth_value: bytes


class Contexts:
    """Maps contexts of this device to the matching contexts of the other TPM."""

    def __init__(self, translation: Translation) -> None:
        self.translation, self.kept = translation, dict[bytes, Kept]()
        # The latest command on sequences that was translated, if it has an HMAC session.
        self.sent: sequence_entries.Sent | None = None

    def command(self, buffer: bytes) -> bytes:
        """Returns the command for the other TPM; a command without contexts is returned unchanged.
        Raises Unsupported for a context from elsewhere, because no context works on both TPMs.
        """
        asked, self.sent = asked_of(buffer), None
        if code_of(buffer) in HANDLES:
            return self.on_sequences(buffer)
        if asked is None:
            return buffer
        handle = handle_of(asked)
        if handle is not None:
            return command(CONTEXT_SAVE, number(self.translation.handle(handle), 4))
        if asked.code != CONTEXT_LOAD:
            return buffer
        if asked.parameters not in self.kept:
            raise Unsupported("a context that was not answered")
        return command(CONTEXT_LOAD, self.kept[asked.parameters].text)

    def on_sequences(self, buffer: bytes) -> bytes:
        """Returns a command on sequences with the other TPM's handles, and with the HMAC of its
        session.
        """
        count = HANDLES[code_of(buffer)]
        end = HEADER_BYTES + 4 * count
        if len(buffer) < end:
            return buffer
        handles = (int.from_bytes(buffer[at : at + 4], "big") for at in range(HEADER_BYTES, end, 4))
        there = [self.translation.handle(it) for it in handles]
        self.sent = sequence_entries.sent(self.translation, buffer, there)
        text = b"".join(number(it, 4) for it in there)
        made = buffer[:HEADER_BYTES] + text + buffer[end:]
        return sequence_entries.with_entry(made, count, self.sent.use) if self.sent else made

    def note(self, buffer: bytes, here: bytes, there: bytes) -> None:
        """Notes a command that both TPMs have executed, with its two responses."""
        asked = asked_of(buffer)
        if code_of(buffer) in STARTS:
            self.loaded(int.from_bytes(here[10:14], "big"), there, None)
        if asked is None:
            return
        handle = handle_of(asked)
        if handle is not None:
            known = self.translation.known
            other = self.translation.handle(handle)
            found = known.names.get(other), known.auth_value(other)
            self.kept[here[10:]] = Kept(there[10:], *found)
        elif asked.code == CONTEXT_LOAD:
            self.loaded(int.from_bytes(here[10:14], "big"), there, self.kept.get(asked.parameters))

    def lose(self, buffer: bytes, here: bytes, line: int) -> None:
        """Notes an object, a session or a sequence that a line of the script loaded on this device
        only.
        """
        if loads(buffer):
            self.translation.lost[int.from_bytes(here[10:14], "big")] = line

    def power_cycle(self) -> None:
        """Forgets the contexts of sessions. Other contexts may still be loaded."""
        self.kept = {text: it for text, it in self.kept.items() if not names_session(text)}

    def loaded(self, handle: int, there: bytes, kept: Kept | None) -> None:
        """Notes the handle that a reloaded object, sequence or session has on the other TPM. It may
        be a new handle.
        """
        other = int.from_bytes(there[10:14], "big")
        self.translation.handles[handle] = other
        self.translation.lost.pop(handle, None)
        if kept is not None and kept.name is not None:
            self.translation.known.note(other, kept.name, kept.auth_value)


def code_of(buffer: bytes) -> int:
    return int.from_bytes(buffer[6:HEADER_BYTES], "big")


def loads(buffer: bytes) -> bool:
    """Whether a command is TPM2_ContextLoad, or starts a sequence."""
    asked = asked_of(buffer)
    is_load = asked is not None and asked.code == CONTEXT_LOAD
    return is_load or code_of(buffer) in STARTS


def handle_of(asked: Asked) -> int | None:
    """Returns the handle that TPM2_ContextSave saves."""
    numbers = numbers_of(asked.parameters, 1) if asked.code == CONTEXT_SAVE else None
    return numbers[0] if numbers else None
