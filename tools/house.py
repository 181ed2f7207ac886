#!/usr/bin/env python3
"""Draws docs/house.svg: the crates in layers, from crates.txt. Each crate is one row above the
highest of the crates that it depends on; crates without dependencies are at the bottom. A crate's
colour shows its group, which is a heading of crates.txt.

`tools/house.py` prints the picture. tools/generated.py writes the file.
"""

import re
import sys
from dataclasses import dataclass
from html import escape
from pathlib import Path

TOP = Path(__file__).resolve().parent.parent

# Sizes in pixels. A row with more crates has several lines.
COLUMNS, BOX, LINE, GAP, MARGIN, TEXT = 5, 182, 24, 6, 12, 12
ROW_NUMBER, LEGEND = 28, 20

STYLE = """
  svg { font: 12px ui-monospace, Consolas, monospace; background: #fff }
  text { fill: #1f2328 } .row { fill: #59636e } rect.band { fill: #f0f2f5 }
  rect.box { stroke: #59636e; stroke-width: 0.5 }
  @media (prefers-color-scheme: dark) {
    svg { background: #0d1117 } .row, .legend { fill: #d1d7e0 } rect.band { fill: #1c2128 }
  }
"""


@dataclass(frozen=True)
class Crate:
    """A crate, its group, and the names of the libraries that it depends on."""

    name: str
    group: int
    below: list[str]


def read(text: str) -> tuple[list[Crate], list[str]]:
    """Returns the crates and the groups of crates.txt, in the order of that file."""
    crates, groups = list[Crate](), list[str]()
    blocks = [it.splitlines() for it in re.split(r"\n{2,}", text) if ":" in it]
    for lines in blocks:
        named = [line for line in lines if not line.startswith("#")]
        if not named:
            continue
        heading = " ".join(line[2:] for line in lines if line.startswith("#"))
        if heading:
            groups.append(re.split(r", which| on which|: ", heading)[0].removesuffix("."))
        for line in named:
            name, _, below = line.partition(":")
            crates.append(Crate(name.split()[0], len(groups) - 1, below.split()))
    return crates, groups


def rows_of(crates: list[Crate]) -> list[list[Crate]]:
    """Returns the crates of each row, from the bottom up."""
    depth: dict[str, int] = {}
    for crate in crates:
        depth[crate.name] = 1 + max((depth.get(it, -1) for it in crate.below), default=-1)
    return [[it for it in crates if depth[it.name] == at] for at in range(max(depth.values()) + 1)]


def colour(group: int, groups: int) -> str:
    """Returns a light colour, on which dark text is legible in both modes."""
    return f"hsl({360 * group // groups}, 70%, {82 if group % 2 else 88}%)"


def text_at(x: int, y: int, words: str, kind: str = "") -> str:
    named = f' class="{kind}"' if kind else ""
    return f'<text x="{x}" y="{y}"{named}>{escape(words)}</text>'


def box_at(x: int, y: int, width: int, fill: str) -> str:
    place = f'x="{x}" y="{y}" width="{width}" height="{LINE}"'
    return f'<rect class="box" {place} rx="3" fill="{fill}"/>'


def row_at(y: int, number: int, row: list[Crate], groups: int) -> tuple[list[str], int]:
    """Draws a row of crates. Also returns the vertical offset below the row."""
    lines = -(-len(row) // COLUMNS)
    height, width = lines * (LINE + GAP) + GAP, COLUMNS * (BOX + GAP) + GAP
    left = MARGIN + ROW_NUMBER
    drawn = [
        f'<rect class="band" x="{left}" y="{y}" width="{width}" height="{height}" rx="4"/>',
        text_at(MARGIN, y + GAP + LINE - 8, str(number), "row"),
    ]
    for at, crate in enumerate(row):
        x = left + GAP + at % COLUMNS * (BOX + GAP)
        top = y + GAP + at // COLUMNS * (LINE + GAP)
        drawn.append(box_at(x, top, BOX, colour(crate.group, groups)))
        drawn.append(text_at(x + GAP, top + LINE - 8, crate.name))
    return drawn, y + height + GAP


def legend_at(y: int, groups: list[str]) -> tuple[list[str], int]:
    """Draws the legend of the colours. Also returns the vertical offset below the legend."""
    drawn = []
    for at, group in enumerate(groups):
        top = y + at * (LINE + GAP)
        drawn.append(box_at(MARGIN + ROW_NUMBER, top, LEGEND, colour(at, len(groups))))
        drawn.append(text_at(MARGIN + ROW_NUMBER + LEGEND + GAP, top + LINE - 8, group, "legend"))
    return drawn, y + len(groups) * (LINE + GAP)


def picture() -> str:
    crates, groups = read((TOP / "crates.txt").read_text("utf-8"))
    drawn, y = list[str](), MARGIN
    rows = rows_of(crates)
    for number, row in reversed(list(enumerate(rows, 1))):
        more, y = row_at(y, number, row, len(groups))
        drawn += more
    more, y = legend_at(y + GAP, groups)
    width = 2 * MARGIN + ROW_NUMBER + COLUMNS * (BOX + GAP) + GAP
    head = (
        f'<svg xmlns="http://www.w3.org/2000/svg" viewBox="0 0 {width} {y + GAP}" role="img" '
        f'aria-label="{len(crates)} crates in {len(rows)} rows, the lowest at the bottom">'
    )
    return "\n".join([head, f"<style>{STYLE}</style>", *drawn, *more, "</svg>"]) + "\n"


if __name__ == "__main__":
    print((__doc__ or "").strip() + "\n" if "--help" in sys.argv[1:] else picture(), end="")
