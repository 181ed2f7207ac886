"""What a sweep found, as one page of HTML without scripts."""

from __future__ import annotations

import html
import shlex

from tpmsim.sweep.report import ended, last_line, named, summary
from tpmsim.sweep.sweeping import Refused, Sweep

STYLE = """body { font: 15px/1.4 sans-serif; margin: 2em; }
table { border-collapse: collapse; }
th, td { text-align: left; vertical-align: top; padding: .2em .8em; border-bottom: 1px solid #ccc; }
tr.found { background: #fdd; }
code { font-size: 95%; }"""

HEADS = (
    "place",
    "command",
    "refused by",
    "what was changed",
    "the client",
    "time",
    "left loaded",
    "its last words",
    "findings",
)

PAGE = """<!DOCTYPE html>
<html lang="en">
<head>
<meta charset="utf-8">
<title>{title}</title>
<style>
{style}
</style>
</head>
<body>
<h1>{title}</h1>
<p>{base}</p>
<p>{summary}</p>
<table>
<tr>{heads}</tr>
{rows}
</table>
</body>
</html>
"""


def cell(words: str) -> str:
    return f"<td>{html.escape(words)}</td>"


def row_of(refused: Refused) -> str:
    """Returns the row of the table for one run."""
    refusal, ran = refused.refusal, refused.ran
    after = ran.names[refusal.at + 1 :]
    did = ran.trouble or ended(ran) + (f", then sent {' '.join(after)}" if after else "")
    left = " ".join(f"{it:08x}" for it in sorted(ran.left))
    words = (
        *(str(refusal.at + 1), refusal.name, f"{refusal.met} {refusal.code_name}"),
        *(refusal.words or "nothing: faked", did, f"{ran.seconds:.1f} s", left),
        *(last_line(ran), named(refused.findings)),
    )
    found = ' class="found"' if refused.findings else ""
    return f"<tr{found}>{''.join(map(cell, words))}</tr>"


def page_of(words: tuple[str, ...], sweep: Sweep) -> str:
    """Returns the page of a sweep."""
    base = f"Unrefused: {ended(sweep.base)}, and it sent {' '.join(sweep.base.names)}."
    if sweep.findings:
        base += f" Finding: {named(sweep.findings)}."
    return PAGE.format(
        title=html.escape(f"Refusals of {shlex.join(words)}"),
        style=STYLE,
        base=html.escape(base),
        summary=html.escape(summary(sweep)),
        heads="".join(f"<th>{it}</th>" for it in HEADS),
        rows="\n".join(map(row_of, sweep.refused)),
    )
