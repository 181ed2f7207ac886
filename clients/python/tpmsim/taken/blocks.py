"""Finds the parts of a text that may be bytes: dumps with offsets, lines of bytes, lists in brackets,
texts with escapes, and long hex numbers in other lines.
"""

import re
from dataclasses import dataclass, field
from typing import Callable, Iterator

from tpmsim.taken import numbers
from tpmsim.taken.dumps import Dump, row_of


@dataclass
class Block:
    """Bytes in a text: the line in which they begin, and what they may be, likeliest first. `lines`
    are the readings of each line. `left_out` is the number of bytes that the printing program left
    out.
    """

    line: int
    readings: list[bytes] = field(default_factory=list)
    lines: list[tuple[int, list[bytes]]] = field(default_factory=list)
    left_out: int = 0


MOST_LIST = 1 << 16
LIST = re.compile(
    r"<Buffer ([0-9a-f .mores]{20,%d})>|\[([^\[\]{}]{19,%d})\]|\{([^\[\]{}]{19,%d})\}"
    % (MOST_LIST, MOST_LIST, MOST_LIST)
)
LEFT_OUT = re.compile(r"\.\.\. ([0-9]+) more (?:items|bytes)")
# Texts with escapes that begin like a command or a response.
LITERAL = re.compile(
    r"""(["'])((?:\\x80|\\200|\\x00\\x[cC]4|\\0\\x[cC]4|\\0+\\304)(?:[^"'\\\n]|\\.|(?!\1)["'])*)\1"""
    r"""((?:\s*b?\1(?:[^"'\\\n]|\\.|(?!\1)["'])*\1)*)"""
)
QUOTES = re.compile(r"""["']\s*b?["']|["']$|^\s*b?["']""")


Read = Callable[[re.Match[str], int], Block | None]


def blocks_of(text: str) -> list[Block]:
    """Returns the blocks of a text, in the order of their lines."""
    found = list[Block]()
    for form, read in ((LITERAL, of_literal), (LIST, of_list)):
        text = taken_out(text, form, read, found)
    found += blocks_of_lines(text)
    return sorted(found, key=lambda it: it.line)


def taken_out(text: str, form: re.Pattern[str], read: Read, found: list[Block]) -> str:
    """Adds the blocks of a form to those that were found; returns the text without them."""
    parts, at, line = list[str](), 0, 1
    for it in form.finditer(text):
        line += text.count("\n", at, it.start())
        block = read(it, line)
        parts.append(text[at : it.start()])
        parts.append(it[0] if block is None else " ~" + "\n" * it[0].count("\n"))
        if block is not None:
            found.append(block)
        line += it[0].count("\n")
        at = it.end()
    return "".join([*parts, text[at:]])


def of_literal(found: re.Match[str], line: int) -> Block:
    first, more = found[2], QUOTES.sub("", found[3].strip()) if found[3].strip() else ""
    return Block(line, [numbers.unescaped(first + more, digits) for digits in (3, 1)])


def of_list(found: re.Match[str], line: int) -> Block | None:
    inner = next(it for it in found.groups() if it is not None)
    cut = LEFT_OUT.search(inner)
    words = numbers.words_of(inner[: cut.start()] if cut else inner)
    readings = list(numbers.readings_of(words))
    return Block(line, readings, left_out=int(cut[1]) if cut else 0) if readings else None


BARE = re.compile(r"[0-9a-fA-FxX\s,:;-]+")
SPLIT = re.compile(r"[\s,:;]+")
PAIR = "[0-9a-fA-F]{2}"
RUN = re.compile(
    rf"(?<![0-9a-zA-Z])(?:0x)?((?:{PAIR}){{10,}}|{PAIR}(?:[ :,-]{PAIR}){{9,}}"
    rf"|0x{PAIR}(?:[ ,]+0x{PAIR}){{9,}}|{PAIR}{PAIR}(?: {PAIR}{PAIR}){{4,}})(?![0-9a-zA-Z])"
)


class Lines:
    """Joins the lines of a text to blocks."""

    def __init__(self) -> None:
        self.found = list[Block]()
        self.dump: Dump | None = None
        self.bare: Block | None = None
        self.words = list[str]()

    def end(self) -> None:
        """Ends the block to which the lines before belong."""
        if self.dump is not None:
            self.found.append(Block(self.dump.line, list(self.dump.readings())))
        if self.bare is not None:
            self.bare.readings = list(numbers.readings_of(self.words))
            self.found.append(self.bare)
        self.dump, self.bare, self.words = None, None, []

    def take(self, line: int, text: str) -> None:
        row = row_of(text, self.dump.rows[-1] if self.dump else None)
        if row is not None:
            if self.dump is None or row.is_first:
                self.end()
                self.dump = Dump(line)
            self.dump.rows.append(row)
        elif self.dump is not None and text.strip() == "*":
            self.dump.rows[-1].is_repeated = True
        elif BARE.fullmatch(text):
            self.take_bare(line, SPLIT.split(text.strip(" \t\r,:;")))
        else:
            self.end()
            for it in RUN.finditer(text):
                readings = list(numbers.readings_of(SPLIT.split(it[1].replace("-", " "))))
                self.found.append(Block(line, readings))

    def take_bare(self, line: int, words: list[str]) -> None:
        if self.dump is not None:
            self.end()
        if self.bare is None:
            self.bare = Block(line)
        self.bare.lines.append((line, list(numbers.readings_of(words))))
        self.words += words


def blocks_of_lines(text: str) -> Iterator[Block]:
    joined = Lines()
    for line, it in enumerate(text.split("\n"), 1):
        if it.strip():
            joined.take(line, it)
        elif joined.dump is not None:
            joined.end()
    joined.end()
    yield from joined.found
