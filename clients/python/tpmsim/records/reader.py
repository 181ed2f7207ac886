"""Reads a log, step by step. A log is a script, which a person or a device in Python wrote; a
journal; a log of `tpmsim serve`; the output of `tpmsim script`; or several of these in sequence.
"""

from __future__ import annotations

import re
from dataclasses import dataclass, field, replace
from typing import Iterator

from tpmsim.model.player import BadLine, LINE_BYTES, LINES, RANDOM_BYTES, Words
from tpmsim.records.drawn import drawn_of
from tpmsim.records.marks import HeadMark, Mark, OFFSET_BASIS, sum_from
from tpmsim.records.opened import is_state_text
from tpmsim.records.parts import Part, parts_of, REPORTED

# A response in a comment: a trace, perhaps after the time of day; a response code; or the bytes.
TRACE = r"\S+ L\d \+\d+ \S+ [0-9a-f]{8}"
RESPONSE = re.compile(r"(?:8001|8002|00c4)[0-9a-f]{16,}")
GIVEN = re.compile(r"# (\d\d:\d\d:\d\d\.\d{3} )?" rf"({TRACE}|[0-9a-f]{{8}}|{RESPONSE.pattern})")

# The word that `tpmsim script` prints instead of a trace for a command with the completing layer.
COMPLETED = "completed"

# How the line of a command begins. If the first command comes before the first response, each
# response follows its command.
COMMANDS = b"cmd", b"do "

DAMAGED_HEAD = "the head is damaged: its sums are others"
OTHER_KIND = "the head is damaged: it holds {}"
DAMAGED_MARK = "the record is damaged: the sum of its mark is another one"
OTHER_LINES = "the record is damaged: its lines are not those of its mark"


@dataclass(frozen=True)
class Begin:
    """The device in an image is powered on, or the device in a state text continues. `start` is the
    number by which a completing layer that starts here identifies its contexts; `damage` says what
    is wrong with the head.
    """

    line: int
    content: bytes
    start: int = 0
    damage: str = ""


@dataclass(frozen=True)
class Power:
    line: int


@dataclass(frozen=True)
class Command:
    """A command and what the log says about its response: traces, codes and responses in comments
    before or after it, and a journal's mark with the checksum of the response. `damage` says what
    is wrong with its record.
    """

    line: int
    text: bytes
    buffer: bytes
    locality: int
    elapsed: int
    random: bytes
    completes: bool = False
    said: list[str] = field(default_factory=list)
    mark: Mark | None = None
    damage: str = ""


@dataclass(frozen=True)
class Comment:
    """The words of a comment. An empty line has no words."""

    line: int
    words: str


@dataclass(frozen=True)
class Cut:
    """The part of a record that a crash left: its size, and the line in which it starts."""

    line: int
    size: int


@dataclass(frozen=True)
class Bad:
    """A line that is not a line of a script; reading stops there."""

    line: int


@dataclass(frozen=True)
class BadHead(Bad):
    """A head that is incomplete."""


Step = Begin | Power | Command | Comment | Cut | Bad


def steps_of(text: bytes) -> Iterator[Step]:
    """Yields the steps of scripts, journals and logs; the first bad line is the last step."""
    for part in parts_of(text):
        for step in Reading(part).whole_steps():
            yield step
            if isinstance(step, Bad):
                return
        if part.torn:
            yield Cut(part.last_line, len(part.torn))


class Reading:
    """The lines of one log."""

    def __init__(self, part: Part) -> None:
        text = part.text
        self.line, self.lines = part.line - 1, text.removesuffix(b"\n").split(b"\n") if text else []
        self.words, self.sum = Words(), OFFSET_BASIS
        self.said, self.is_completed = list[str](), False
        self.after: list[str] | None = None  # collects the responses after a command
        self.mark: Mark | None = None
        self.damage = ""
        self.tells_random = any(it.startswith(b"entropy ") for it in self.lines)
        self.is_before = answers_come_first(self.lines)

    def whole_steps(self) -> Iterator[Step]:
        """Yields each step. A command is yielded after its responses have been read, but before the
        comments that are between these responses.
        """
        waiting = list[Step]()
        for step in self.steps():
            if not isinstance(step, Comment):
                yield from map(self.followed, waiting)
                waiting.clear()
            waiting.append(step)
        yield from map(self.followed, waiting)

    def followed(self, step: Step) -> Step:
        """Adds a command's random bytes from its response, if the log does not record them."""
        if not isinstance(step, Command) or self.tells_random:
            return step
        for it in step.said:
            if RESPONSE.fullmatch(it):
                drawn = drawn_of(step.buffer, bytes.fromhex(it), RANDOM_BYTES)
                return replace(step, random=drawn) if any(drawn) else step
        return step

    def steps(self) -> Iterator[Step]:
        """Yields the steps of this part."""
        yield from self.head()
        for text in self.lines:
            self.line += 1
            if self.line > LINES:
                yield Bad(self.line)
                return
            try:
                yield from self.step(text)
            except BadLine:
                yield Bad(self.line)
                return

    def head(self) -> Iterator[Step]:
        """Reads the head, which has two lines in a journal and one in a report."""
        first = self.lines[0] if self.lines else b""
        mark, reported = HeadMark.read(first), REPORTED.match(first)
        if mark is None and reported is None:
            return
        count = 1 if mark is None else 2
        last = self.lines[1].removeprefix(b"# ") if len(self.lines) >= count > 1 else b"?"
        content = hex_of(first[reported.end() :] if reported else last)
        self.line += count
        del self.lines[:count]
        if content is None or mark is not None and len(content) < mark.size:
            yield BadHead(self.line)
        elif mark is None:
            yield Begin(self.line, content)
        else:
            self.sum = mark.said
            yield Begin(self.line - 1, content, self.sum, damage_of(mark, content))

    def step(self, text: bytes) -> Iterator[Step]:
        """Yields the steps of one line of the log."""
        if len(text) > LINE_BYTES:
            raise BadLine
        if text == b"power":
            self.after = None
            yield Power(self.line)
        elif not text or text.startswith(b"#"):
            yield from self.comment(text)
        else:
            buffer = self.words.take(text)
            if buffer is not None:
                yield self.command(text, buffer)

    def comment(self, text: bytes) -> Iterator[Step]:
        """Yields the steps of a comment, which may be a mark of a journal."""
        mark, given = Mark.read(text), GIVEN.fullmatch(text.decode("latin-1"))
        if mark is not None:
            total = sum_from(self.sum, mark.text)
            self.mark, self.sum = mark, mark.said
            self.damage = "" if total == mark.said else DAMAGED_MARK
        elif text == b"# " + COMPLETED.encode():
            self.is_completed = True
        elif given is None:
            yield Comment(self.line, text[1:].strip().decode("latin-1"))
        elif self.is_before or given[1] is not None:
            self.said.append(given[2])
        elif self.after is not None:
            self.after.append(given[2])

    def command(self, text: bytes, buffer: bytes) -> Command:
        """Returns a command with its settings, and with what is wrong with its mark."""
        words, mark = self.words, self.mark
        given = buffer, words.locality, words.elapsed
        found = Command(self.line, text, *given, words.random, self.is_completed, self.said)
        if mark is not None:
            drawn = words.random[: mark.drawn]
            damage = self.damage or ("" if mark.is_of(*given, drawn) else OTHER_LINES)
            random = drawn.ljust(RANDOM_BYTES, b"\0")
            told = {"random": random, "completes": mark.completes, "mark": mark, "damage": damage}
            found = replace(found, **told)
        words.elapsed, self.mark, self.is_completed = 0, None, False
        self.after, self.said = self.said, []
        return found


def answers_come_first(lines: list[bytes]) -> bool:
    """Whether responses come before their commands, as in the output of `tpmsim script`. They do if
    a response comes before the first command.
    """
    for line in lines:
        if line.startswith(COMMANDS):
            return False
        if GIVEN.fullmatch(line.decode("latin-1")):
            return True
    return False


def hex_of(text: bytes) -> bytes | None:
    """Returns the bytes that are written in hex, or None."""
    try:
        return bytes.fromhex(text.decode("ascii"))
    except ValueError:
        return None


def damage_of(mark: HeadMark, content: bytes) -> str:
    """Returns what is wrong with the head of a journal, or an empty text."""
    if not mark.is_of(content):
        return DAMAGED_HEAD
    if mark.is_state != is_state_text(content):
        return OTHER_KIND.format("an image" if mark.is_state else "a state text")
    return ""
