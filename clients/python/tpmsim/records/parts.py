"""Splits a text into the logs that it contains. Each begins with a head, except perhaps the first.
"""

import re
from dataclasses import dataclass
from typing import Iterator

from tpmsim.records.marks import HEAD, Mark, MARK

# The head of a log that Python's devices and pytest write. Because a word in a comment may happen
# to be hex, the digits must either begin with the magic of images and state texts, or be at least
# as many as in the shortest image or state text, 84.
REPORTED = re.compile(rb"^# (image|state) (?=54504d|[0-9a-f]{84})", re.MULTILINE)

# The head of a journal, or of a log that Python wrote. If a crash cut off a journal, no newline
# separates it from the head of the next one.
HEADS = re.compile(HEAD.pattern + rb"(?=\n)|" + REPORTED.pattern, re.MULTILINE)
LINES_OF_HEAD, LINES_OF_ENTRY = 2, 5
BEGUN = re.compile(rb"#( ([0-9a-f]+( [0-9a-f]*)?)?)?")
LINE_END = re.compile(rb"\n")
LINE_OF_MARK = re.compile(rb"^" + MARK.pattern + rb"\n", re.MULTILINE)


@dataclass(frozen=True)
class Part:
    """A log: its text, the number of its first line, and the incomplete bytes that a crash left
    after it.
    """

    text: bytes
    line: int
    torn: bytes = b""

    @property
    def is_journal(self) -> bool:
        """Whether the part is a journal."""
        return HEAD.match(self.text) is not None

    @property
    def last_line(self) -> int:
        """The number of the line in which the incomplete bytes start."""
        return self.line + self.text.count(b"\n")


def parts_of(text: bytes) -> Iterator[Part]:
    """Yields the parts of a text, which begin at the heads in it."""
    starts = [it.start() for it in HEADS.finditer(text)]
    at, line = 0, 1
    for end in [*(it for it in starts if it), len(text)]:
        yield whole_of(Part(text[at:end], line))
        line += text.count(b"\n", at, end)
        at = end


def whole_of(part: Part) -> Part:
    """Returns the part without the incomplete record at its end, which may be cut off or consist of
    zeros.
    """
    if not part.is_journal:
        return part
    front = part.text.rstrip(b"\0")
    marks = list(LINE_OF_MARK.finditer(front))
    end = marks[-1].start() if marks else after_lines(front, LINES_OF_HEAD)
    if marks and not is_cut(front[end:]):
        end = after_lines(front, LINES_OF_ENTRY, end)
    if not is_cut(front[end:]) and not BEGUN.fullmatch(front, end):
        end = len(front)
    return Part(part.text[:end], part.line, part.text[end:])


def is_cut(entry: bytes) -> bool:
    """Whether these bytes are an incomplete entry. Their first line must be the mark of an entry.
    They must be shorter than the entry that this mark describes, and each newline in them must be
    at an offset where that entry has a newline.
    """
    mark = Mark.read(entry.partition(b"\n")[0])
    ends = {it.start() for it in LINE_END.finditer(entry)}
    return mark is not None and len(entry) < mark.entry_bytes and ends <= mark.line_ends


def after_lines(text: bytes, count: int, at: int = 0) -> int:
    """Returns the offset after this number of lines, or the text's end if it has fewer."""
    for _ in range(count):
        at = text.find(b"\n", at) + 1
        if not at:
            return len(text)
    return at
