"""Finds the commands and responses in bytes. A buffer begins with a tag, its own size and a code."""

from dataclasses import dataclass
from typing import Iterator

from tpmsim.standard import COMMAND_BYTES, frames, HEADER_BYTES, NUMBERED
from tpmsim.standard.command_names import NAMES

TAGS = frames.NO_SESSIONS, frames.SESSIONS, frames.BAD_TAG_ANSWER


@dataclass(frozen=True)
class Buffer:
    """A command or a response, and the line of the text, or the number of the packet, in which it
    begins. `is_response` is None if only its bytes can say what it is.
    """

    line: int
    data: bytes
    is_response: bool | None = None

    @property
    def number(self) -> int:
        """The command code or the response code."""
        return int.from_bytes(self.data[6:HEADER_BYTES], "big")


def size_at(data: bytes, at: int = 0) -> int:
    """Returns the size in the header at an offset; 0 if there is no header."""
    if at + HEADER_BYTES > len(data) or int.from_bytes(data[at : at + 2], "big") not in TAGS:
        return 0
    size = int.from_bytes(data[at + 2 : at + 6], "big")
    return size if HEADER_BYTES <= size <= COMMAND_BYTES else 0


def split(data: bytes) -> list[bytes]:
    """Returns the buffers that follow each other in bytes; empty if there is anything else."""
    found, at = list[bytes](), 0
    while at < len(data):
        size = size_at(data, at)
        if not size or at + size > len(data):
            return []
        found.append(data[at : at + size])
        at += size
    return found


def within(data: bytes) -> Iterator[bytes]:
    """Yields the buffers in bytes that also contain a protocol's own fields."""
    at = 0
    while at < len(data):
        size = size_at(data, at)
        if size and at + size <= len(data) and is_likely(data[at : at + size]):
            yield data[at : at + size]
            at += size
        else:
            at += 1


def is_likely(data: bytes) -> bool:
    """Whether bytes with a header can be a command or a response of the standard."""
    number = int.from_bytes(data[6:HEADER_BYTES], "big")
    return number == 0 or number in NAMES or len(data) == HEADER_BYTES


def missing_bytes(data: bytes) -> int:
    """Returns the size of what is missing at a buffer's end; 0 if the bytes are no buffer."""
    size = size_at(data)
    return max(0, size - len(data))


def is_response(buffer: Buffer, is_after_command: bool) -> bool:
    """Whether a buffer is a response. No command has the code 0, and each refusal has ten bytes. A
    command of ten bytes has neither handles nor parameters.
    """
    if buffer.is_response is not None:
        return buffer.is_response
    if len(buffer.data) > HEADER_BYTES or buffer.number == 0:
        return buffer.number == 0
    served = NUMBERED.get(buffer.number)
    if is_after_command or served is not None:
        return served is None or bool(served.handles or served.parameters)
    return buffer.number not in NAMES
