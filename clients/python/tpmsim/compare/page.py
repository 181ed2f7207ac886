"""Writes the table of differences from swtpm into docs/TOOLS.md, between its marks:

    python3 -m tpmsim.compare.page docs/TOOLS.md SCRIPT..

tests/common/made.py makes the scripts.
"""

import itertools
import pathlib
import re
import subprocess
import sys
from collections import defaultdict

from tpmsim.compare.differences import Cause, cause_of, CAUSES, Difference
from tpmsim.compare.main import compared
from tpmsim.model.player import BadLine

BEGIN, END = "<!-- swtpm -->\n", "<!-- end of swtpm -->\n"
HEAD = """| what differs | example | tpmsim | swtpm {version} | our decision |
|---|---|---|---|---|"""


# The outcome in the comment of a command.
OUTCOME = re.compile(r": [A-Z][A-Z0-9_]+\b")


def short(value: str, most: int = 40) -> str:
    return value if len(value) <= most else f"{value[: most - 3]}.."


def words_above(script: str, line: int) -> str:
    """Returns the words of the comment above a line of a script, without the outcome. If the comment
    names no outcome, returns its first sentence.
    """
    above = script.splitlines()[: line - 1][::-1]
    comment = itertools.dropwhile(lambda it: not it.startswith("#"), above)
    told = list(itertools.takewhile(lambda it: it.startswith("#"), comment))
    text = " ".join(it[1:].strip() for it in reversed(told))
    words, *outcome = OUTCOME.split(text, 1)
    return words if outcome else text.partition(". ")[0]


def row(cause: Cause, found: list[tuple[pathlib.Path, Difference]]) -> str:
    accepted = [each for each in found if "success" in (each[1].here, each[1].there)]
    path, it = (accepted or found)[0]
    words = short(words_above(path.read_text("latin-1"), it.line), 120)
    example = f'{path.parent.name}/{path.stem}, "{words}": {it.command}'
    if it.what != "code":
        example += f" {it.what}"
    what = f"{cause.words} ({cause.section})" if cause.section else cause.words
    return f"| {' | '.join((what, example, short(it.here), short(it.there), cause.decision))} |"


def table(scripts: list[pathlib.Path]) -> str:
    """Returns the table: a row with an example for each cause that has a decision."""
    found: dict[Cause | None, list[tuple[pathlib.Path, Difference]]] = defaultdict(list)
    for path in scripts:
        try:
            report = compared(path, "swtpm")
        except BadLine:
            continue
        for it in report.differences:
            if it.follows is None:
                found[cause_of(it)].append((path, it))
    rows = [row(it, found[it]) for it in CAUSES if found[it] and it.decision]
    unknown = [f"- {path.parent.name}/{path.stem}: {it}" for path, it in found[None]]
    run = subprocess.run(["swtpm", "--version"], capture_output=True, text=True, check=True)
    head = HEAD.format(version=run.stdout.split("version ")[1].split(",")[0])
    lines = [head, *rows, *(["", "Of no known cause:", "", *unknown] if unknown else [])]
    return "".join(f"{line}\n" for line in lines)


def put(document: pathlib.Path, new: str) -> None:
    """Replaces the text between the marks of a document."""
    front, begin, rest = document.read_text("utf-8").partition(BEGIN)
    _, end, back = rest.partition(END)
    if not begin or not end:
        raise SystemExit(f"{document} has no place for the table")
    document.write_text(front + begin + new + end + back, "utf-8")


if __name__ == "__main__":
    put(pathlib.Path(sys.argv[1]), table([pathlib.Path(it) for it in sys.argv[2:]]))
