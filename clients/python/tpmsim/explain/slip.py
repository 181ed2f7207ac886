"""A caller's mistake ("slip"): its name, its description, and how it changes the ingredients of a
hash or an HMAC.
"""

from __future__ import annotations

import json
import pathlib
from dataclasses import dataclass, field
from typing import Any, Callable, Mapping, NamedTuple

from tpmsim.explain.ingredients import Ingredients
from tpmsim.explain.words import ALGORITHMS
from tpmsim.standard import SHA1, SHA256

Told = tuple[str, str]
Changes = Mapping[str, Any]


@dataclass(frozen=True)
class Slip:
    """A caller's mistake: what it changes in the ingredients of an HMAC. `told` is the mistake's
    name and description, or two such pairs if one ingredient contains two mistakes. A mistake that
    is not paired is never combined with others. `turn`, if set, computes the changes when another
    mistake has already changed the ingredients.
    """

    told: tuple[Told, ...] = ()
    changes: Changes = field(default_factory=dict)
    is_paired: bool = True
    turn: Callable[[Ingredients], Changes] | None = None

    @classmethod
    def of(cls, name: str, words: str, is_paired: bool = True, **changes: Any) -> Slip:
        return cls(((name, words),), changes, is_paired)

    @property
    def name(self) -> str:
        return self.told[0][0]

    def change(self, right: Ingredients) -> Ingredients:
        return right._replace(**self.changes)


# A change of the correct ingredients, or of the correct parts of KDFa.
Turn = Callable[[Any], Changes]


class Row(NamedTuple):
    """A mistake in a table."""

    name: str
    words: str
    turn: Turn


# The descriptions of the mistakes in each table, by name.
FILE = pathlib.Path(__file__).with_name("slips.json")
SLIPS: dict[str, dict[str, str]] = json.loads(FILE.read_text("utf-8"))


def rows(table: str, turns: Mapping[str, Turn]) -> list[Row]:
    """Returns the mistakes of a table. If several have the same name, a dot and a word that
    distinguishes them follow the name in `turns` and in slips.json.
    """
    return [Row(key.partition(".")[0], SLIPS[table][key], turn) for key, turn in turns.items()]


def other_hash(own: int) -> int:
    return SHA1 if own == SHA256 else SHA256


def other_words(own: int) -> str:
    return f"by {ALGORITHMS[other_hash(own)]}, and the session has {ALGORITHMS[own]}"
