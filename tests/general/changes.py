"""Commands that are cut, or in which a size, a count or a byte is changed."""

import itertools
from collections.abc import Iterator

from tpmsim.explain.dissection import fields_of_command
from tpmsim.standard import CC, Fields, HEADER_BYTES, Kind, number, SESSIONS
from tpmsim.standard.values import VALUES

LISTS = Kind.BUFFERS, Kind.SELECTION, Kind.DIGESTS
COUNTS = {"commandSize", "authorizationSize", "sizeofSelect"}
TURNED_BITS = 0x01, 0x80, 0xFF


def code_of(buffer: bytes) -> CC:
    return CC(int.from_bytes(buffer[6:10], "big"))


def with_size(buffer: bytes) -> bytes:
    """Returns the buffer with its own length as commandSize."""
    return buffer[:2] + number(len(buffer), 4) + buffer[6:]


def parts(buffer: bytes) -> Iterator[tuple[str, str, int]]:
    """Yields the handles, the authorization area, and the parameters of a command. Each has a name,
    the outcome of a command that ends within it, and its end.
    """
    code, fields = code_of(buffer), Fields(buffer[HEADER_BYTES:])
    for place, handle in enumerate(code.handles, 1):
        fields.number(4)
        yield handle.name, f"INSUFFICIENT/h{place}", len(buffer) - len(fields.data)
    if buffer[:2] == number(SESSIONS, 2):
        fields.take(fields.number(4))
        yield "the authorization area", "AUTHSIZE", len(buffer) - len(fields.data)
    for place, parameter in enumerate(code.parameters, 1):
        VALUES[parameter.kind].read(fields)
        yield parameter.name, f"INSUFFICIENT/p{place}", len(buffer) - len(fields.data)


def cuts(buffer: bytes) -> Iterator[tuple[str, str, list[bytes]]]:
    """Yields the cut buffers of a command in rows: a description, an outcome, and buffers. If a cut
    buffer has the right commandSize, it is refused because bytes are missing.
    """
    as_it_was = [buffer[:length] for length in range(len(buffer))]
    yield "Cut, with the old commandSize", "COMMAND_SIZE", as_it_was
    start = HEADER_BYTES
    for name, outcome, end in parts(buffer):
        corrected = [with_size(buffer[:length]) for length in range(start, end)]
        yield f"Cut within {name}, with commandSize corrected", outcome, corrected
        start = end


def sizes(buffer: bytes) -> Iterator[tuple[str, int, int]]:
    """Yields the sizes and counts of a command. Each has a name, an offset, and its own size."""
    counts = COUNTS | {it.name for it in code_of(buffer).parameters if it.kind in LISTS}
    for it in fields_of_command(buffer):
        if it.front or it.name in counts:
            yield f"the size of {it.name}" if it.front else it.name, it.at, it.front or it.size


def added(buffer: bytes, at: int, size: int, by: int) -> bytes:
    """Returns the buffer with a number changed by `by`. Zero minus one becomes the largest number
    of the same size.
    """
    value = int.from_bytes(buffer[at : at + size], "big") + by
    return buffer[:at] + number(value % 256**size, size) + buffer[at + size :]


def bends(buffer: bytes) -> Iterator[tuple[str, bytes]]:
    """Yields buffers in which one size or count is changed by one, each with a description."""
    yield "a zero byte more and commandSize corrected", with_size(buffer + b"\0")
    for name, at, size in sizes(buffer):
        yield f"{name} raised", added(buffer, at, size, 1)
        yield f"{name} lowered", added(buffer, at, size, -1)


def turns(buffer: bytes) -> Iterator[bytes]:
    """Yields buffers in which one byte is changed: its lowest bit, its highest, or all its bits."""
    for at, bits in itertools.product(range(len(buffer)), TURNED_BITS):
        yield buffer[:at] + bytes([buffer[at] ^ bits]) + buffer[at + 1 :]
