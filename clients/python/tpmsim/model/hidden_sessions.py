"""Hides saved sessions from the device. A saved session stays in its slot, but the device must not
accept it until its context is loaded. So the device gets a buffer in which the handle of the saved
session names nothing, and refuses the command as if the session did not exist.
"""

from __future__ import annotations

import itertools
from collections.abc import Callable, Iterator
from dataclasses import dataclass

from tpmsim.model import sequence_commands
from tpmsim.standard import frames, NUMBERED

# The number of handles of each command on sequence objects that has sessions.
SEQUENCE_HANDLES = {
    sequence_commands.SEQUENCE_COMPLETE: 1,
    sequence_commands.HMAC_START: 1,
    sequence_commands.SEQUENCE_UPDATE: 1,
    sequence_commands.EVENT_SEQUENCE_COMPLETE: 2,
}

# The largest size of a command.
LIMIT = 4096

TAG_AT, CODE_AT, HANDLES_AT = 0, 6, 10

# The most entries of a command.
ENTRIES = 3

# The slot of the handle that replaces the handle of a saved session.
NO_SLOT = b"\xff\xff\xff"


def number_at(buffer: bytes, place: int, size: int) -> int:
    """Returns the number at an offset of a buffer; 0 if the buffer ends before."""
    found = buffer[place : place + size]
    return int.from_bytes(found, "big") if len(found) == size else 0


def handles_of(code: int) -> int:
    """Returns the number of handles of a command."""
    if code in SEQUENCE_HANDLES:
        return SEQUENCE_HANDLES[code]
    return len(NUMBERED[code].handles) if code in NUMBERED else 0


def entries(buffer: bytes, place: int) -> Iterator[int]:
    """Returns the offsets of the entries in the authorization area at an offset."""
    end, place = place + 4 + number_at(buffer, place, 4), place + 4
    while place < end:
        yield place
        nonce = number_at(buffer, place + 4, 2)
        place += 9 + nonce + number_at(buffer, place + 7 + nonce, 2)


def places(buffer: bytes) -> Iterator[int]:
    """Returns the offsets at which a command may have the handle of a session."""
    count = handles_of(number_at(buffer, CODE_AT, 4))
    yield from range(HANDLES_AT, HANDLES_AT + 4 * count, 4)
    if number_at(buffer, TAG_AT, 2) == frames.SESSIONS:
        yield from itertools.islice(entries(buffer, HANDLES_AT + 4 * count), ENTRIES)


@dataclass(frozen=True)
class Saved:
    """The handle of a saved session, and its offset in a command."""

    handle: int
    place: int

    @property
    def words(self) -> str:
        return f"session {self.handle:08x} is saved, and its context is not loaded"


def first(buffer: bytes, is_saved: Callable[[int], bool]) -> Saved | None:
    """Returns the first handle in a command that `is_saved` says is that of a saved session."""
    if len(buffer) > LIMIT:
        return None
    for place in places(buffer):
        handle = number_at(buffer, place, 4)
        if place + 4 <= len(buffer) and is_saved(handle):
            return Saved(handle, place)
    return None


def hidden(buffer: bytes, saved: Saved | None) -> bytes:
    """Returns the buffer that the device gets for a client's command."""
    if saved is None:
        return buffer
    return buffer[: saved.place + 1] + NO_SLOT + buffer[saved.place + 4 :]
