"""The sources of man pages: sections of documents, the help texts of programs, and a header."""

import functools
import pathlib
import re
import subprocess
import tomllib
from dataclasses import dataclass
from typing import Any

TOP = pathlib.Path(__file__).resolve().parents[2]
FENCED = re.compile(r"^```.*?^```$", re.M | re.S)
HEADING = re.compile(r"^(#{1,6}) +(.+?) *$", re.M)
COMMENT = re.compile(r"/\*.*?\*/", re.S)
DECLARATION = re.compile(r"^\w[\w *]*\([^;{}]*\);", re.M)


class Missing(Exception):
    """The exception for a missing source of a page."""


@functools.cache
def pages_told() -> dict[str, Any]:
    """Returns the content of tools/packaging/pages.toml."""
    with open(TOP / "tools" / "packaging" / "pages.toml", "rb") as file:
        return tomllib.load(file)


def installed(text: str) -> str:
    """Returns a text in which the programs' names are replaced with their installed names."""
    for path, name in pages_told()["names"].items():
        text = re.sub(rf"(?<![\w/.]){re.escape(path)}(?![\w/])", name, text)
    return text


@dataclass
class Part:
    """A section of a document: the document, the section's text, the number of levels above it, and
    the anchors in it.
    """

    document: str
    text: str
    depth: int
    anchors: set[str]


def anchor_of(heading: str) -> str:
    """Returns the anchor that GitHub makes for a heading."""
    words = re.sub(r"\[([^]]*)\]\([^)]*\)", r"\1", heading)
    return re.sub(r"[^\w\- ]", "", words.lower()).replace(" ", "-")


def headings_of(text: str) -> list[tuple[int, int, str]]:
    """Returns the offset, the level and the anchor of each heading outside of code."""
    blank = FENCED.sub(lambda found: re.sub(r"[^\n]", " ", found[0]), text)
    return [(each.start(), len(each[1]), anchor_of(each[2])) for each in HEADING.finditer(blank)]


def part_of(name: str) -> Part:
    """Returns the section that `DOCUMENT#anchor` names or, for `DOCUMENT`, the text before the
    first section.
    """
    document, _, anchor = name.partition("#")
    text = (TOP / document).read_text()
    headings = headings_of(text)
    anchors = [own for _, _, own in headings]
    wanted = anchor or anchors[0]
    if wanted not in anchors:
        raise Missing(f"{document} has no section {anchor}")
    number = anchors.index(wanted)
    start, level, _ = headings[number]
    later = [begin for begin, below, _ in headings[number + 1 :] if not anchor or below <= level]
    end = min(later, default=len(text))
    within = {own for begin, _, own in headings if start <= begin < end}
    return Part(document, text[start:end], level - 1, within)


def said(words: list[str], program: str) -> str:
    """Returns the output of a command. The word `tpmsim` is replaced with the path of the program.
    """
    told = [program if word == "tpmsim" else word for word in words]
    run = subprocess.run(told, cwd=TOP, capture_output=True, text=True, check=False, timeout=60)
    if run.returncode or not run.stdout:
        raise Missing(f"{' '.join(words)} has the status {run.returncode}, and says {run.stderr!r}")
    return run.stdout


def help_parts(text: str) -> dict[str, str]:
    """Returns the parts of a help text, keyed by their headings. The part before the first heading
    has the key "".
    """
    pieces = re.split(r"^(\w+):(?: |\n|$)", text, flags=re.M)
    return {"": pieces[0].strip(), **dict(zip(pieces[1::2], pieces[2::2]))}


def usage_of(text: str) -> list[str]:
    """Returns the command lines of a help text: those after `Usage:` and `or:`."""
    found = re.match(r"Usage: (.*)\n((?:  or:  .*\n)*)", text)
    if not found:
        raise Missing("a help does not begin with `Usage:`")
    return [found[1], *(line.removeprefix("  or:  ") for line in found[2].splitlines())]


def declarations_of(header: str) -> list[str]:
    """Returns the lines of a header that declare functions."""
    text = COMMENT.sub("", (TOP / header).read_text())
    return "\n".join(DECLARATION.findall(text)).split("\n")
