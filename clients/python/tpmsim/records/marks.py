"""The marks of a journal: comments of a script that contain numbers and checksums in hex. The
checksum is 64-bit FNV-1a; a mark's own checksum covers the mark and all marks before it.
"""

from __future__ import annotations

import re
from dataclasses import dataclass
from itertools import accumulate

from tpmsim.standard import Fields

OFFSET_BASIS, PRIME, SUM_BITS = 0xCBF29CE484222325, 0x100000001B3, 0xFFFF_FFFF_FFFF_FFFF

HEAD = re.compile(rb"# tpmsim (journal [12]|v[0-9a-f]{8}) ([0-9a-f]{40}) ([0-9a-f]{16})")
MARK = re.compile(rb"# ([0-9a-f]{52}) ([0-9a-f]{16})")

# The first words of a head with an image, and of a head with a state text whose writer did not write
# its version. Any other word contains the version, as a multiple of VERSION_FACTOR.
IMAGE, UNVERSIONED, VERSION_FACTOR = b"journal 1", b"journal 2", 251

MARK_LINE_BYTES = 72

# The size of the lines of a journal's entry, without the entry's mark, and without the digits of
# the random bytes and of the command.
LINES_BYTES = 36

# The sizes of an entry's lines for the time, the locality and the random bytes (without the two
# digits for each random byte).
WAIT_BYTES, LOC_BYTES, ENTROPY_BYTES = 16, 6, 9


def sum_from(total: int, data: bytes) -> int:
    """Continues a checksum over more bytes."""
    for byte in data:
        total = (total ^ byte) * PRIME & SUM_BITS
    return total


def sum_of(data: bytes) -> int:
    """Returns the checksum of bytes."""
    return sum_from(OFFSET_BASIS, data)


@dataclass(frozen=True)
class HeadMark:
    """A head's mark: the host's clock, and the size and the checksum of the image or the state
    text; `said` is the mark's own checksum, and `is_known` says whether the first word can be that of
    a head.
    """

    is_state: bool
    clock: int
    size: int
    content: int
    text: bytes
    said: int
    is_known: bool

    @classmethod
    def read(cls, line: bytes) -> HeadMark | None:
        """Parses a line; returns None if it is not the mark of a head."""
        found = HEAD.fullmatch(line)
        if found is None:
            return None
        kind, *marked = found.groups()
        text, said = (bytes.fromhex(it.decode("ascii")) for it in marked)
        fields = Fields(text)
        numbers = fields.number(8), fields.number(4), fields.number(8)
        is_known = kind in (IMAGE, UNVERSIONED) or int(kind[1:], 16) % VERSION_FACTOR == 0
        return cls(kind != IMAGE, *numbers, text, int.from_bytes(said, "big"), is_known)

    def is_of(self, content: bytes) -> bool:
        """Returns whether the mark is undamaged and belongs to this content."""
        own = self.is_known and sum_of(self.text) == self.said
        return own and len(content) == self.size and sum_of(content) == self.content


@dataclass(frozen=True)
class Mark:
    """An entry's mark: data about the entry's command, and the checksum of the response."""

    elapsed: int
    locality: int
    completes: bool
    drawn: int
    size: int
    contents: int
    answered: int
    text: bytes
    said: int

    @classmethod
    def read(cls, line: bytes) -> Mark | None:
        """Parses a line; returns None if it is not the mark of an entry."""
        found = MARK.fullmatch(line)
        if found is None:
            return None
        text, said = (bytes.fromhex(it.decode("ascii")) for it in found.groups())
        fields = Fields(text)
        elapsed, locality, flag = fields.number(4), fields.number(1), fields.number(1)
        sizes = fields.number(2), fields.number(2)
        sums = fields.number(8), fields.number(8)
        return cls(elapsed, locality, bool(flag), *sizes, *sums, text, int.from_bytes(said, "big"))

    @property
    def entry_bytes(self) -> int:
        """The size of the whole entry in the journal."""
        return MARK_LINE_BYTES + LINES_BYTES + 2 * max(1, self.drawn) + 2 * self.size

    @property
    def line_ends(self) -> set[int]:
        """The offsets of the ends of the entry's lines, except for the last line."""
        lines = (MARK_LINE_BYTES, WAIT_BYTES, LOC_BYTES, ENTROPY_BYTES + 2 * max(1, self.drawn))
        return {end - 1 for end in accumulate(lines)}

    def is_of(self, buffer: bytes, locality: int, elapsed: int, drawn: bytes) -> bool:
        """Returns whether the mark belongs to a command with this buffer, locality, time and random
        bytes.
        """
        told = self.locality, self.elapsed, self.drawn, self.size
        if told != (locality, elapsed, len(drawn), len(buffer)):
            return False
        return self.contents == sum_of(drawn + buffer)
