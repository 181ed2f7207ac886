"""Sets of attributes in words, such as `ownerread|authread`, as tpm2-tools write them."""

import enum
from typing import Iterable

from tpmsim.faults import BadValue

JOIN = "|"


def plain(name: str) -> str:
    """Returns a word in the form in which words are compared: in lower case, without `_`."""
    return name.lower().replace("_", "")


def bits_of(kind: Iterable[enum.IntEnum], words: str, also: dict[str, int] | None = None) -> int:
    """Returns the attributes that the words, joined by `|`, name. The words are the names in `kind`
    and those of `also`. Raises BadValue for any other word.
    """
    known = {**{plain(it.name): int(it) for it in kind}, **(also or {})}
    found = 0
    for word in filter(None, words.split(JOIN)):
        if plain(word.strip()) not in known:
            raise BadValue("attributes", word, f"words of {', '.join(known)}")
        found |= known[plain(word.strip())]
    return found


def words_of(kind: Iterable[enum.IntEnum], bits: int) -> str:
    """Returns the words of the attributes that are set."""
    return JOIN.join(plain(it.name) for it in kind if it & bits)
