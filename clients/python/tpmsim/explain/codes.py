"""Says which checks of tpmsim return a response code."""

import json
import pathlib
from typing import Any, Iterator

from tpmsim.explain.reason import Fact
from tpmsim.explain.text import facts_words, wrapped
from tpmsim.explain.code_words import is_refusal, meaning_of, title_of
from tpmsim.standard.response_codes import place_of
from tpmsim.taken.codes import Code, CODE_BITS

# Which checks return a code: where the fault is, the check's name, and its link. tools/generated.py
# writes the file.
FILE = pathlib.Path(__file__).with_name("codes.json")
CHECKS: dict[str, list[list[str]]] = json.loads(FILE.read_text("utf-8"))
LETTERS = {"handle": "/h", "parameter": "/p", "session": "/s"}


def checks_of(code: Code) -> list[tuple[str, str]]:
    """Returns the checks of tpmsim that return a code, each with its link."""
    if not is_refusal(code):
        return []
    kind, _, number = place_of(code.number & CODE_BITS).partition(" ")
    letter = LETTERS.get(kind, "")
    places = {"", letter, letter + number} if kind else set[str]()
    return [
        (name, link)
        for place, name, link in CHECKS.get(f"{code.base:03X}", [])
        if not kind or place in places
    ]


def lines_of(codes: list[Code], has_lines: bool) -> Iterator[str]:
    """Yields the lines about codes. With `has_lines` each begins with the line that has the code."""
    for code in codes:
        yield f"line {code.line}: {title_of(code)}" if has_lines else title_of(code)
        yield from wrapped(meaning_of(code))
        if not is_refusal(code):
            continue
        checks = checks_of(code)
        said = "These checks of tpmsim return it:" if checks else "No check of tpmsim returns it."
        yield from wrapped(said)
        yield from facts_words([Fact(name, link) for name, link in checks])
        yield ""


def values_of(codes: list[Code]) -> list[dict[str, Any]]:
    """Returns the codes as values of JSON."""
    return [
        {
            "line": it.line,
            "code": f"{it.number:08x}",
            "name": title_of(it),
            "meaning": meaning_of(it),
            "checks": [list(found) for found in checks_of(it)],
        }
        for it in codes
    ]
