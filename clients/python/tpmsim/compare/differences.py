"""Finds the differences between two responses. Lists the random fields, and the known causes of
differences.
"""

import json
import pathlib
import re
from dataclasses import dataclass
from typing import Any, Iterator

from tpmsim.standard import frames, Short
from tpmsim.standard.objects import Public
from tpmsim.standard.values import Digest, Ticket, Time

# Fields made from random bytes or from a TPM's own secrets. Only their sizes are compared.
BY_CHANCE = {
    *("nonceTPM", "randomBytes", "outPrivate", "name", "qualifiedName", "creationHash"),
    "creationData",
}

# Codes that only other TPMs return.
OTHER_CODES = {
    0x124: "AUTH_TYPE",
    0x081: "ASYMMETRIC",
    0x09B: "ECC_POINT",
    0x0A3: "EXPIRED",
    0x103: "SEQUENCE",
}


@dataclass(frozen=True)
class Difference:
    """The differences at a line of the script, and the earlier line that caused them, if any."""

    line: int
    command: str
    what: str
    here: str
    there: str
    follows: int | None = None

    def __str__(self) -> str:
        both = f"here {self.here}, there {self.there}"
        words = f"line {self.line}: {self.command}: {self.what}: {both}"
        return words if self.follows is None else f"{words}, which follows from line {self.follows}"


def code_word(code: int) -> str:
    """Returns a response code as its name and place, or as its number."""
    if not code:
        return "success"
    name, place = frames.spelled_code(code)
    name = name or OTHER_CODES.get(code & 0x0BF if place else code, f"{code:03X}")
    return f"{name}/{place}" if place and not name.isdigit() else name


def comparable(name: str, value: Any) -> Any:
    if name in BY_CHANCE:
        return f"{len(value)} bytes"
    if isinstance(value, Ticket):
        return f"{value.tag:04x} {value.hierarchy:08x} {len(value.digest)} bytes"
    if isinstance(value, Time):
        return f"resets {value.resets}, restarts {value.restarts}, safe {value.is_safe}"
    if name == "outPublic":
        try:
            public = Public.read(value)
        except (Short, ValueError):
            return value.hex()
        return value[: len(value) - len(public.unique)].hex()
    return value


def shown(value: Any) -> str:
    if isinstance(value, bytes):
        return value.hex() or "-"
    if isinstance(value, Digest):
        return f"{value.algorithm:04x}:{value.digest.hex()}"
    return str(value)


def between(here: dict[str, Any], there: dict[str, Any]) -> Iterator[tuple[str, str, str]]:
    """Yields the fields that differ, with both values; for lists, the first elements that
    differ.
    """
    for name, value in here.items():
        own, other = comparable(name, value), comparable(name, there.get(name))
        if own == other:
            continue
        if isinstance(own, list) and isinstance(other, list):
            if len(own) != len(other):
                yield name, f"{len(own)} elements", f"{len(other)} elements"
                continue
            own, other = next(it for it in zip(own, other) if it[0] != it[1])
        yield name, shown(own), shown(other)


@dataclass(frozen=True)
class Cause:
    """A known cause of differences: their pattern, the section of rev. 01.38, and what tpmsim does
    (empty if TPMs need not agree)."""

    words: str
    form: str
    section: str
    decision: str

    def shows(self, it: Difference) -> bool:
        return bool(re.search(self.form, f"{it.command} {it.what} {it.here} {it.there}"))


# The cause of a difference is the first one whose pattern it matches.
FILE = pathlib.Path(__file__).with_name("causes.json")
CAUSES = tuple(Cause(**it) for it in json.loads(FILE.read_text("utf-8")))


def cause_of(it: Difference) -> Cause | None:
    return next((cause for cause in CAUSES if cause.shows(it)), None)
