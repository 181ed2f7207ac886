"""Makes a script from a text that another program wrote about a TPM."""

from __future__ import annotations

import re
from bisect import bisect_right
from dataclasses import dataclass, field
from typing import Iterable

from tpmsim.faults import TpmsimError
from tpmsim.records.parts import HEADS
from tpmsim.taken import capture
from tpmsim.taken.blocks import Block, blocks_of
from tpmsim.taken.buffers import Buffer, is_response, missing_bytes, size_at, split
from tpmsim.taken.codes import Code, codes_in

# The largest text in another format. A script, a journal and a log may be larger.
MOST_BYTES = 1 << 24
MOST_LINES = 1 << 20

OWN_LINE = re.compile(rb"(?:cmd|do|wait|loc|entropy) |power$")
FIRST_LINE = re.compile(rb"^[^#\s].*", re.MULTILINE)
SPACED = re.compile(
    rb"^cmd ((?:(?:0[xX])?[0-9a-fA-F]{2}[ \t,:;]+)+(?:0[xX])?[0-9a-fA-F]{2})[ \t,;]*$", re.M
)


REFUSED_BY_RUN = "`tpmsim run` refuses this script: its lines end with CR LF, or its bytes have spaces between them"


class NothingFound(TpmsimError):
    """A text is no script, and has no command, response or response code in a known form."""

    def __init__(self, more: str) -> None:
        words = "is no script, and has no command, response or response code in a known form"
        super().__init__(words + more)


class TooLong(TpmsimError):
    """A text in another format is too long."""


@dataclass
class Taken:
    """A text as a script. `form` says how the text was read; empty for a script, a journal or a log
    of tpmsim. `codes` are the response codes in a text without commands. `remarks` say what was left
    out.
    """

    script: bytes
    form: str = ""
    codes: list[Code] = field(default_factory=list)
    remarks: list[str] = field(default_factory=list)

    @property
    def is_foreign(self) -> bool:
        return bool(self.form)


def taken_of(text: bytes) -> Taken:
    """Takes a script, a journal or a log of tpmsim as it is, and finds the commands, the responses
    and the response codes in any other text. Raises TooLong if this has too many bytes, and
    NothingFound if it has none of these.
    """
    if OWN_LINE.match(first_line(text)) or HEADS.search(text):
        return own(text)
    if not text.strip():
        return Taken(text)
    if len(text) > MOST_BYTES:
        raise TooLong(
            f"has {len(text):,} bytes; of another format, at most {MOST_BYTES:,} are read"
        )
    if capture.is_capture(text):
        return script_of(list(capture.buffers_of(text)), "a capture; line N is packet N")
    whole = split(text)
    if whole:
        return script_of([Buffer(1, it) for it in whole], "the bytes of commands and responses")
    try:
        return of_blocks(text.decode("utf-8", "replace").replace("\r\n", "\n").replace("\r", "\n"))
    except NothingFound:
        if first_line(text):
            raise
        return Taken(text)  # comments alone are a script


def first_line(text: bytes) -> bytes:
    """Returns the first line that is neither empty nor a comment."""
    found = FIRST_LINE.search(text.removeprefix(b"\xef\xbb\xbf"))
    return found[0].rstrip() if found else b""


def own(text: bytes) -> Taken:
    """Takes a text of tpmsim. An editor of Windows may have changed the ends of its lines, and bytes
    may be separated.
    """
    lines = text.removeprefix(b"\xef\xbb\xbf").replace(b"\r\n", b"\n")
    script = SPACED.sub(lambda it: b"cmd " + joined(it[1]), lines)
    return Taken(script, remarks=[REFUSED_BY_RUN] if script != text else [])


def joined(pairs: bytes) -> bytes:
    return re.sub(rb"0[xX]|[ \t,:;]", b"", pairs)


def of_blocks(text: str) -> Taken:
    """Takes the commands and responses in the blocks of a text or, without these, its codes."""
    found, others = list[Buffer](), list[Block]()
    for block in blocks_of(text):
        buffers = buffers_of(block)
        found += buffers
        others += [] if buffers else [block]
    remarks = [it for it in (cut_words(block, found) for block in others) if it]
    if found:
        return script_of(found, "the commands and responses in a text", remarks)
    codes = codes_in(text)
    if not codes:
        raise NothingFound("".join(f"; {it}" for it in remarks))
    return Taken(text.encode(), "the response codes in a text", codes, folder_words(text))


OWN_FOLDER = re.compile(r'"tpmsim:(?:[^",]+,)*state=([^",]+)')


def folder_words(text: str) -> list[str]:
    """Returns where the commands are, if the text is libtss2's log of a device in a folder."""
    folders = list(dict.fromkeys(OWN_FOLDER.findall(text)))
    return [f"the commands are in the journal of the device: tpmsim-explain {it}" for it in folders]


def buffers_of(block: Block) -> list[Buffer]:
    """Returns the commands and responses of a block, by the first reading that is nothing else; or
    those of its lines.
    """
    for data in block.readings:
        whole = split(data)
        if whole:
            return numbered(block, whole)
    return [
        Buffer(line, it)
        for line, readings in block.lines
        for it in next(filter(None, map(split, readings)), [])
    ]


def numbered(block: Block, whole: list[bytes]) -> list[Buffer]:
    """Returns buffers, each with its line, as far as the block's lines show it."""
    starts, at = list[int](), 0
    for _, readings in block.lines:
        starts.append(at)
        at += len(readings[0]) if readings else 0
    found, at = list[Buffer](), 0
    for it in whole:
        place = bisect_right(starts, at) - 1
        found.append(Buffer(block.lines[place][0] if starts else block.line, it))
        at += len(it)
    return found


def cut_words(block: Block, found: list[Buffer]) -> str:
    """Returns what is missing of a block that begins like a command or a response; empty if the text
    also has the whole.
    """
    for data in block.readings:
        missing = missing_bytes(data)
        if missing and not any(it.data.startswith(data) for it in found):
            return f"line {block.line}: {missing:,} of {size_at(data):,} bytes are missing"
    return ""


STARTUP = "cmd 80010000000c00000144"


class Script:
    """The script of commands and responses. Each is in its own line of the text, unless the line
    before it has more than one of them.
    """

    def __init__(self) -> None:
        self.lines, self.commands = list[str](), 0
        self.orphans = list[Buffer]()
        self.is_after, self.last = False, b""

    def add(self, it: Buffer) -> None:
        answers = is_response(it, self.is_after)
        if answers and not self.is_after:
            # libtss2 prints a response twice
            self.orphans += [it] if it.data != self.last else []
            return
        if answers and it.number == 0:
            self.power()
        if it.line <= MOST_LINES:
            self.lines += [""] * (it.line - 1 - len(self.lines))
        self.lines.append(f"{'#' if answers else 'cmd'} {it.data.hex()}")
        self.commands += not answers
        self.is_after, self.last = not answers, it.data

    def power(self) -> None:
        """Adds a power cycle before a TPM2_Startup that succeeded, unless it is the first command."""
        if not self.lines[-1].startswith(STARTUP) or self.commands < 2:
            return
        if not self.lines[-2]:
            del self.lines[-2]
        self.lines.insert(-1, "power")


def script_of(buffers: Iterable[Buffer], form: str, remarks: Iterable[str] = ()) -> Taken:
    """Returns the script of commands and responses or, without commands, the responses' codes."""
    made = Script()
    for it in buffers:
        made.add(it)
    if not made.commands:
        codes = list({it.number: Code(it.number, it.line) for it in made.orphans}.values())
        if not codes:
            raise NothingFound("")
        return Taken(b"", form, codes, list(remarks))
    more = list(remarks)
    if made.orphans:
        count = len(made.orphans)
        more.append(
            f"{count} response{'s' * (count > 1)} without a command {'are' if count > 1 else 'is'} left out"
        )
    return Taken("\n".join([*made.lines, ""]).encode(), form, [], more)
