"""Shows the refusals that were met as one page, in which each refusal is a square."""

import html

from tpmsim.coverage.met import Met
from tpmsim.coverage.report import cell, kinds_of, names_of, summary
from tpmsim.refusals.words import sentence_of
from tpmsim.standard.rows import AnyRow, Kind

HEAD = """<!doctype html>
<html lang="en"><meta charset="utf-8"><title>Refusals met</title>
<style>
body { font: 15px/1.4 system-ui, sans-serif; margin: 2em auto; max-width: 75em }
table { border-collapse: collapse; width: 100% }
td { padding: 3px 8px; vertical-align: top; border-top: 1px solid #ddd }
i { display: inline-block; width: 11px; height: 16px; margin: 1px; background: #d9d4c7 }
i.state { background: #d98880 }
i.met { background: #2e8b57 }
</style>
<h1>Refusals met</h1>
"""
LEGEND = (
    "<p><i class=met></i> met; <i class=state></i> never met, though a correct client can get it; "
    "<i></i> never met, of another kind. Point at a square for the refusal.</p>"
)


def square(met: Met, row: AnyRow) -> str:
    """Returns the square of a refusal."""
    words = (
        f"{row.check} {row.code_name} ({row.code:X}), met {met.refused[row]}: {sentence_of(row)}"
    )
    names = [row.kind.value, *(["met"] if row in met.refused else [])]
    return f'<i class="{" ".join(names)}" title="{html.escape(words)}"></i>'


def command_row(met: Met, name: str, rows: list[AnyRow], kinds: list[Kind]) -> str:
    """Returns the table's row of a command."""
    counts = ((it, met.share(row for row in rows if row.kind == it)) for it in kinds)
    shares = ", ".join(f"{it.value} {cell(*count)}" for it, count in counts if count[1])
    squares = "".join(square(met, it) for it in rows)
    named = f"<b>{html.escape(name)}</b><br>{met.accepted[name]} accepted"
    return f"<tr><td>{named}<td>{shares}<td>{squares}\n"


def page_of(met: Met, only: Kind | None) -> str:
    """Returns the page, in HTML."""
    rows = met.could(only)
    told = "".join(f"<p>{html.escape(it)}</p>\n" for it in summary(met, only))
    shown = (
        command_row(met, name, [it for it in rows if it.name == name], kinds_of(only))
        for name in names_of(met)
    )
    return f"{HEAD}{told}{LEGEND}\n<table>\n{''.join(shown)}</table>\n"
