"""Reads the rows of dumps with offsets, such as those of xxd, hexdump, od, libtss2 and the kernel."""

from __future__ import annotations

import re
from dataclasses import dataclass, field
from typing import Iterator

from tpmsim.taken import numbers
from tpmsim.taken.buffers import TAGS
from tpmsim.taken.numbers import NoReading, Reading, Words

OFFSET = re.compile(r"(?:^|(?<=[\s\]:]))(?:0x)?([0-9a-fA-F]{4,16})(:?)(?=\s|$)")
WORD = re.compile(r"-?[0-9a-fA-F]+")
# The bytes of a row of Wireshark or tshark, up to the column of the characters.
SPACED = re.compile(r" {2,3}((?:[0-9a-fA-F]{2} )+) *(?:(?<=^  \S.{49})|(?<=^   \S.{49}))")
MOST_OFFSETS, MOST_ROW = 6, 8192
BASES = 16, 8, 10
# The largest distance of two rows, and with a line `*` between them.
MOST_BETWEEN, MOST_REPEATED = 64, 4096
COLUMN = 4
ESCAPES = {r"\0": 0, r"\a": 7, r"\b": 8, r"\t": 9, r"\n": 10, r"\v": 11, r"\f": 12, r"\r": 13}


def characters(columns: Words) -> bytes:
    """Reads `200 001  \\0`, which od -c and hexdump -c print."""
    found = bytearray()
    for it in columns:
        word = it.strip()
        if numbers.OCTAL.fullmatch(word):
            found.append(int(word, 8) & 0xFF)
        elif word in ESCAPES:
            found.append(ESCAPES[word])
        elif len(word) <= 1:
            found.append(ord(word or " ") & 0xFF)
        else:
            raise NoReading
    return bytes(found)


@dataclass
class Row:
    """A row of a dump: its offset, its words, and its columns, which characters() reads. With
    `is_repeated` a line `*` follows.
    """

    offset: str
    words: list[str]
    columns: list[str]
    is_repeated: bool = False

    @property
    def is_first(self) -> bool:
        return not self.offset.strip("0")

    def read(self, reading: Reading) -> bytes:
        if not self.words and not self.columns:
            return b""
        return reading(self.columns if reading is characters else self.words)

    def follows(self, last: Row) -> bool:
        """Whether the row can belong to the dump of the row before."""
        most = MOST_REPEATED if last.is_repeated else MOST_BETWEEN
        return len(self.offset) == len(last.offset) and any(
            0 < at - before <= most
            for at, before in zip(offsets_of(self.offset), offsets_of(last.offset))
        )

    def has_tag(self) -> bool:
        """Whether the row begins like a command or a response."""
        for reading in ALL_READINGS:
            try:
                if int.from_bytes(self.read(reading)[:2], "big") in TAGS:
                    return True
            except NoReading:
                pass
        return False


ALL_READINGS: tuple[Reading, ...] = (*numbers.READINGS, characters)


def offsets_of(word: str) -> Iterator[int]:
    """Yields what an offset may be, in each base; -1 if it is no number in a base."""
    for base in BASES:
        try:
            yield int(word, base)
        except ValueError:
            yield -1


def row_of(text: str, last: Row | None) -> Row | None:
    """Returns the row in a line, which may begin with a program's own words; None if there is none.
    A row without a row before it begins at offset 0, like a command or a response.
    """
    if len(text) > MOST_ROW:
        return None
    for _, found in zip(range(MOST_OFFSETS), OFFSET.finditer(text)):
        row = row_at(found, text[found.end() :])
        if last is not None and row.follows(last) or row.is_first and row.has_tag():
            return row
    return None


def row_at(found: re.Match[str], rest: str) -> Row:
    """Returns the row of an offset; `rest` is what follows it in its line."""
    columns = [rest[at : at + COLUMN] for at in range(0, len(rest.rstrip()), COLUMN)]
    spaced = SPACED.match(rest)
    rest = spaced[1].strip() if spaced else re.split(r"[|>]", rest)[0].strip()
    if found[2]:
        rest = re.split(r"\s{2,}", rest)[0]
    words = list[str]()
    for it in rest.split():
        if not WORD.fullmatch(it):
            break
        words.append(it)
    return Row(found[1], words, columns)


@dataclass
class Dump:
    """The rows of a dump, which begins in a line."""

    line: int
    rows: list[Row] = field(default_factory=list)

    def readings(self) -> Iterator[bytes]:
        """Yields the bytes that the rows may stand for."""
        for offsets in zip(*(offsets_of(it.offset) for it in self.rows)):
            for reading in ALL_READINGS if min(offsets) >= 0 else ():
                try:
                    yield self.read(reading, list(offsets))
                except NoReading:
                    pass

    def read(self, reading: Reading, offsets: list[int]) -> bytes:
        """Returns the bytes by one notation; raises NoReading if they do not fit the offsets."""
        data, last = bytearray(), b""
        for at, row in enumerate(self.rows):
            if at and self.rows[at - 1].is_repeated and last:
                missing = offsets[at] - len(data)
                data += (last * (missing // len(last) + 1))[: max(0, missing)]
            if not row.words and len(data) > offsets[at]:
                del data[offsets[at] :]  # the last word was filled with zeros
            if len(data) != offsets[at]:
                raise NoReading
            last = row.read(reading)
            data += last
        return bytes(data)
