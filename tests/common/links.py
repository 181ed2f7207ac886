"""Follows the links of documents:

    python3 tests/common/links.py [--count] FOLDER DOCUMENT..

Each link to a file of FOLDER must lead to an existing file or folder. Each #anchor must lead to a
heading of the document; GitHub's rule makes anchors from headings. The program prints a line for
each link that leads nowhere. It does not follow links to other sites. With --count the last line
has the exact numbers of documents and links. Otherwise it says only whether there are at least 30
documents and 500 links. The status is 1 if a link leads nowhere.
"""

import pathlib
import re
import sys
from collections.abc import Iterator

FENCE = re.compile(r"^ *(```|~~~).*?^ *\1 *$", re.M | re.S)
CODE = re.compile(r"(`+)(?!`).+?(?<!`)\1(?!`)", re.S)
LINK = re.compile(r"\]\(([^()\s]+)\)")
HEADING = re.compile(r"^#{1,6} +(.+?) *#*$", re.M)
SITE = re.compile(r"^[a-z]+:")


def blank(found: re.Match[str]) -> str:
    """Returns the line breaks of a match, so that line numbers stay the same when it is removed."""
    return "\n" * found[0].count("\n")


def anchor_of(heading: str) -> str:
    """Returns GitHub's anchor of a heading, without the number that a repeated heading gets."""
    words = re.sub(r"\[([^]]*)\]\([^)]*\)", r"\1", heading)
    return re.sub(r"[^\w\- ]", "", words.lower()).replace(" ", "-")


def anchors_of(text: str) -> set[str]:
    """Returns all anchors of a document. The second heading with the same text gets an anchor that
    ends with -1.
    """
    times: dict[str, int] = {}
    anchors = set()
    for heading in HEADING.findall(FENCE.sub(blank, text)):
        anchor = anchor_of(heading)
        number = times.get(anchor, 0)
        times[anchor] = number + 1
        anchors.add(f"{anchor}-{number}" if number else anchor)
    return anchors


def links_of(text: str) -> Iterator[tuple[int, str]]:
    """Yields each link of a document with its line number, except links in code."""
    prose = CODE.sub(blank, FENCE.sub(blank, text))
    for found in LINK.finditer(prose):
        yield prose.count("\n", 0, found.start()) + 1, found[1]


def fault_of(document: pathlib.Path, target: str) -> str:
    """Returns why a link leads nowhere; empty if its target exists."""
    name, _, anchor = target.partition("#")
    path = document.parent / name if name else document
    if not path.exists():
        return "no such file"
    if anchor and anchor not in anchors_of(path.read_text("utf-8")):
        return "no such heading"
    return ""


def main(words: list[str]) -> int:
    """Prints the links that lead nowhere, and returns the status."""
    counts = words[:1] == ["--count"]
    folder, *names = words[1:] if counts else words
    links, broken = 0, 0
    for name in names:
        document = pathlib.Path(folder) / name
        for line, target in links_of(document.read_text("utf-8")):
            links += 1
            fault = "" if SITE.match(target) else fault_of(document, target)
            if fault:
                broken += 1
                print(f"{name}:{line}: {target}: {fault}")
    if counts:
        print(f"{len(names)} documents, {links} links, {broken} of them broken")
    else:
        many = "at least 30 documents and 500 links" if len(names) >= 30 and links >= 500 else "few"
        print(f"{many}, {broken} links broken")
    return 1 if broken else 0


if __name__ == "__main__":
    sys.exit(main(sys.argv[1:]))
