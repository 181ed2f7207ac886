"""Converts the part of Markdown that the documents use to roff, with the macros of man(7).

The program reads headings, paragraphs, lists with `-`, tables, and fenced or indented code; and
within a line, code, links, `**words**` and `*words*`. A table row becomes a paragraph tagged with
the first cell.
"""

import re
from collections.abc import Callable, Iterator

FENCE = re.compile(r"^```")
HEADING = re.compile(r"^(#{1,6}) +(.+?) *#*$")
ITEM = re.compile(r"^- +")
ROW = re.compile(r"^\|(.*)\|$")
RULE = re.compile(r"^\|[-| :]+\|$")
CELLS = re.compile(r"(?<!\\)\|")
IMAGE = re.compile(r"!\[[^]]*\]\([^)]*\)")
PIECE = re.compile(
    r"(?P<ticks>`+)(?P<code>.+?)(?P=ticks)|\[(?P<text>(?:[^][]|\[[^]]*\])*)\]\((?P<target>[^()\s]+)\)"
    r"|\*\*(?P<strong>.+?)\*\*|(?<![\w*])\*(?P<soft>[^*\s][^*]*)\*(?![\w*])"
)

# A function from a link's text and target to the link's replacement.
Link = Callable[[str, str], str]


def escaped(text: str) -> str:
    """Returns a text with every character escaped that has a special meaning in roff."""
    return text.replace("\\", "\\e").replace("-", "\\-").replace("'", "\\(aq").replace("`", "\\(ga")


def line(text: str) -> str:
    """Returns a line of text in a form that roff does not read as a request."""
    return "\\&" + text if text[:1] in (".", "'") else text


def plain(text: str) -> str:
    """Returns the roff of a text that is not code."""
    unescaped = re.sub(r"\\([\\|`*_<>#])", r"\1", text)
    return escaped(unescaped).replace("\\-", "-").replace("\\(aq", "'")


def inline(text: str, link: Link) -> str:
    """Returns the roff of a text without line breaks."""
    made, end = [], 0
    for piece in PIECE.finditer(text):
        made.append(plain(text[end : piece.start()]))
        end = piece.end()
        if piece["code"] is not None:
            code = piece["code"].replace("\\|", "|")
            made.append(f"\\fB{escaped(code.strip() or code)}\\fR")
        elif piece["target"] is not None:
            made.append(inline(link(piece["text"], piece["target"]), link))
        elif piece["strong"] is not None:
            made.append(f"\\fB{plain(piece['strong'])}\\fR")
        else:
            made.append(f"\\fI{plain(piece['soft'])}\\fR")
    return "".join(made) + plain(text[end:])


def code(lines: list[str]) -> Iterator[str]:
    """Yields lines of code, unchanged."""
    yield from (".PP", ".RS 4", ".nf")
    yield from (line(escaped(text)) for text in lines)
    yield from (".fi", ".RE")


def cells_of(text: str) -> list[str]:
    return [cell.strip() for cell in CELLS.split(text.strip()[1:-1])]


def table(rows: list[str], link: Link) -> Iterator[str]:
    """Yields a paragraph for each row, tagged with the first cell. From the third cell on, each
    cell is preceded by the heading of its column.
    """
    heads, *body = [cells_of(row) for row in rows if not RULE.match(row)]
    for first, second, *others in body:
        yield from (".TP", line(inline(first, link)) or "\\&", line(inline(second, link)) or "\\&")
        for head, cell in zip(heads[2:], others):
            if cell:
                yield from (".br", line(inline(f"{head}: {cell}", link)))


def section(level: int, heading: str, link: Link) -> str:
    """Returns a heading: a section of the page if its level is 1, otherwise a subsection."""
    words = inline(heading, link)
    return f".SH {words.upper() if words.isascii() else words}" if level <= 1 else f".SS {words}"


def taken(lines: list[str], start: int, belongs: Callable[[str], bool]) -> int:
    """Returns the number of the first line at or after `start` for which `belongs` is false."""
    while start < len(lines) and belongs(lines[start]):
        start += 1
    return start


def goes_on(text: str) -> bool:
    """Returns whether a line continues the previous paragraph."""
    return bool(text.strip()) and not any(form.match(text) for form in (FENCE, HEADING, ITEM, ROW))


def paragraph(lines: list[str], link: Link) -> str:
    return line(inline(IMAGE.sub("", " ".join(text.strip() for text in lines)).strip(), link))


def roff(text: str, link: Link, depth: int = 0) -> Iterator[str]:
    """Yields the roff lines of a Markdown text. The levels of its headings are reduced by `depth`.
    """
    lines, at = text.split("\n"), 0
    while at < len(lines):
        here, end = lines[at], at + 1
        if heading := HEADING.match(here):
            yield section(len(heading[1]) - depth, heading[2], link)
        elif FENCE.match(here):
            end = taken(lines, end, lambda text: not FENCE.match(text)) + 1
            yield from code(lines[at + 1 : end - 1])
        elif here.startswith("    "):
            end = taken(lines, end, lambda text: text.startswith("    "))
            yield from code([text[4:] for text in lines[at:end]])
        elif ROW.match(here):
            end = taken(lines, end, lambda text: bool(ROW.match(text)))
            yield from table(lines[at:end], link)
        elif ITEM.match(here):
            end = taken(lines, end, goes_on)
            yield from (".IP \\(bu 2", paragraph([here[2:], *lines[at + 1 : end]], link))
        elif here.strip():
            end = taken(lines, end, goes_on)
            if words := paragraph(lines[at:end], link):
                yield from (".PP", words)
        at = end
