#!/usr/bin/env python3
"""Makes the man pages from the documents, the header, and the programs' own help.

    tools/man/pages.py FOLDER [--program PROGRAM]

tools/packaging/pages.toml lists the sources of each page. The pages, such as tpmsim.1, are written to
FOLDER. The program is dist/tpmsim, or PROGRAM. The status is 1, with a line on standard error, if a
section or a program is missing. Needs only python3.
"""

import functools
import pathlib
import re
import sys
from collections.abc import Iterator
from dataclasses import dataclass, field

# Python must write no bytecode into the repository.
sys.dont_write_bytecode = sys.pycache_prefix is None

import roff  # noqa: E402
from sources import TOP, Missing, Part, declarations_of, help_parts, installed  # noqa: E402
from sources import pages_told, part_of, said, usage_of  # noqa: E402

DOCUMENT_NAME = re.compile(r"[A-Z_]+(\.md)?")
FOLDER = re.compile(
    r"(?<![\w/.~-])((?:bench|crates|dist|docs|examples|hosts|library|tests|tools)/)"
)
FONT = re.compile(r"\\f[BIR]")
INSTALLED = re.compile("docs/|examples/")
OPTION = re.compile(r"^ {2,6}(\S.*?)(?: {2,}(.*))?$")


@dataclass
class Page:
    """The entry in tools/packaging/pages.toml for a page."""

    name: str
    section: int
    parts: list[str]
    purpose: str = ""
    also: list[str] = field(default_factory=list)
    commands: list[str] = field(default_factory=list)
    help: list[str] = field(default_factory=list)
    usage: list[str] = field(default_factory=list)
    header: str = ""
    listing: dict[str, list[str]] = field(default_factory=dict)

    def title(self) -> str:
        return f"**{self.name}**({self.section})"

    def file(self) -> str:
        return f"{self.name}.{self.section}"


def words_of(text: str) -> str:
    """Returns the roff of a help text, which contains no links."""
    return roff.line(roff.inline(text, lambda text, _: text))


def option_lines(text: str) -> Iterator[str]:
    """Yields the options, arguments or subcommands that a help text lists, as tagged paragraphs."""
    for each in text.split("\n"):
        found = OPTION.match(each)
        if found and not found[1].startswith(("-h,", "-V,", "help ")):
            yield from (".TP", f"\\fB{roff.escaped(found[1])}\\fR")
            yield words_of(found[2]) if found[2] else "\\&"
        elif each.strip() and not found:
            yield words_of(each.strip())


class Manual:
    """All pages, and the page that contains each section of a document."""

    def __init__(self, program: str) -> None:
        self.program = program
        # A key is the name of a page. If two pages have the same name, the section number follows
        # it.
        told = pages_told()["pages"].items()
        self.pages = {key: Page(key.partition(".")[0], **page) for key, page in told}
        self.version = said(["tpmsim", "--version"], program).split()[-1]
        self.parts: dict[str, list[Part]] = {}
        self.places: dict[tuple[str, str], Page] = {}
        for page in self.pages.values():
            self.parts[page.file()] = [part_of(part) for part in page.parts]
            for part in self.parts[page.file()]:
                self.places |= {(part.document, anchor): page for anchor in part.anchors}

    def place_of(self, path: str, anchor: str) -> Page | None:
        """Returns the page that contains the section with an anchor. Without an anchor, returns the
        page that contains most of the document.
        """
        if anchor:
            return self.places.get((path, anchor))
        pages = [page for (document, _), page in self.places.items() if document == path]
        return max(pages, key=pages.count) if pages else None

    def link(self, page: Page, document: str, text: str, target: str) -> str:
        """Returns the replacement of a link on a page: the link's text, and the page that contains
        its target.
        """
        file, _, anchor = target.partition("#")
        if ":" in file:
            return text if text in target else f"{text} ({target})"
        path = (TOP / document).parent.joinpath(file).resolve() if file else TOP / document
        place = self.place_of(str(path.relative_to(TOP)), anchor)
        if DOCUMENT_NAME.fullmatch(text):
            told = place.title() if place else str(path.relative_to(TOP))
            return "below" if place is page else told
        return f"{text} ({place.title()})" if place and place is not page else text

    def commands(self, words: list[str]) -> Iterator[str]:
        """Yields the subcommands of a program, each with its options, taken from their --help."""
        told = help_parts(said([*words, "--help"], self.program))["Commands"]
        yield ".SH COMMANDS"
        for name in re.findall(r"^ {2}(\S+)", told, re.M):
            if name == "help":
                continue
            parts = help_parts(said([*words, name, "--help"], self.program))
            yield f".SS {roff.escaped(parts['Usage'].strip())}"
            yield from (".PP", words_of(parts[""].replace("\n", " ") + "."))
            for heading in "Commands", "Arguments", "Options":
                yield from option_lines(parts.get(heading, ""))
            if example := parts.get("Example"):
                yield from (".PP", "Example:", *roff.code([example.strip()]))

    def synopsis(self, page: Page) -> list[str]:
        """Returns the lines of code of a synopsis."""
        if page.header:
            header = pathlib.Path(page.header)
            library = header.stem.replace("_", "-")
            flags = f"cc PROGRAM.c $(pkg-config --cflags --libs {library})"
            return [f"#include <{header.name}>", flags, "", *declarations_of(page.header)]
        if page.commands:
            return [
                f"{' '.join(page.commands)} {word}"
                for word in ("COMMAND ..", "--help", "--version")
            ]
        if page.help:
            return [installed(line) for line in usage_of(said(page.help, self.program))]
        return page.usage

    def head(self, page: Page) -> Iterator[str]:
        """Yields the title, the name and the synopsis."""
        purpose = page.purpose or said([*page.commands, "--help"], self.program).split("\n")[0]
        names = ", ".join([page.name, *(other.partition(".")[0] for other in page.also)])
        yield f'.TH "{page.name.upper()}" "{page.section}" "" "tpmsim {self.version}" "tpmsim"'
        yield from (".SH NAME", f"{roff.escaped(names)} \\- {words_of(purpose)}", ".SH SYNOPSIS")
        yield from roff.code(self.synopsis(page))

    def files(self, lines: list[str]) -> Iterator[str]:
        """Yields the installed paths of those folders that these lines mention by their paths in
        the repository.
        """
        named = sorted({f"\\fB{it}\\fR" for it in FOLDER.findall(FONT.sub("", "\n".join(lines)))})
        ours = [it for it in named if INSTALLED.search(it)]
        others = [it for it in named if it not in ours]
        if named:
            yield ".SH FILES"
        if ours:
            yield from (".PP", f"Below the prefix, in share/doc/tpmsim: {', '.join(ours)}")
        if others:
            yield from (".PP", f"In the sources, and not installed: {', '.join(others)}")

    def lines(self, page: Page) -> Iterator[str]:
        """Yields the roff lines of a page."""
        lines = list(self.body(page))
        yield from (*lines, *self.files(lines))
        others = ", ".join(other.title() for other in self.pages.values() if other is not page)
        yield from (".SH SEE ALSO", words_of(others))

    def body(self, page: Page) -> Iterator[str]:
        """Yields the introduction of a page, and then the lines of all its sections."""
        yield from self.head(page)
        if page.commands:
            yield from self.commands(page.commands)
        for part in self.parts[page.file()]:
            link = functools.partial(self.link, page, part.document)
            yield from roff.roff(installed(part.text), link, part.depth)
        for heading, words in page.listing.items():
            yield f".SH {heading.upper()}"
            yield from roff.code(said(words, self.program).rstrip().split("\n"))

    def write(self, folder: pathlib.Path) -> None:
        """Writes all pages. For each alternative name of a page, writes a page that refers to it.
        """
        folder.mkdir(parents=True, exist_ok=True)
        for page in self.pages.values():
            (folder / page.file()).write_text("\n".join(self.lines(page)) + "\n")
            for other in page.also:
                also = other if "." in other else f"{other}.{page.section}"
                (folder / also).write_text(f".so man{page.section}/{page.file()}\n")


def main(words: list[str]) -> int:
    """Makes the pages that the arguments name, and returns the exit status."""
    if len(words) not in (1, 3) or words[1:2] not in ([], ["--program"]):
        print("usage: tools/man/pages.py FOLDER [--program PROGRAM]", file=sys.stderr)
        return 2
    program = pathlib.Path(words[2]).resolve() if len(words) == 3 else TOP / "dist" / "tpmsim"
    try:
        Manual(str(program)).write(pathlib.Path(words[0]))
    except (Missing, OSError) as missing:
        print(f"pages.py: {missing}", file=sys.stderr)
        return 1
    return 0


if __name__ == "__main__":
    sys.exit(main(sys.argv[1:]))
