"""Two mistakes at once in an HMAC: two that change different ingredients, or one that is applied to
the result of the other.

An HMAC has three parts: its key, cpHash and the rest of its text. Each part is computed once for
each mistake that changes only that part, and the parts of two mistakes are combined.
"""

from __future__ import annotations

from itertools import combinations, product
from typing import Iterator, Sequence

from tpmsim.explain.ingredients import Ingredients
from tpmsim.explain.slip import Slip

KEY, CP_HASH, REST = "key", "cpHash", "rest"
PARTS = {
    **dict.fromkeys(("session_key", "auth_value", "key_of"), KEY),
    **dict.fromkeys(("hash_algorithm", "code", "names", "parameters"), CP_HASH),
    **dict.fromkeys(("text_of", "cp_hash_of"), CP_HASH),
    **dict.fromkeys(("newer", "older", "others", "attributes", "message_of"), REST),
}


class Turned:
    """A mistake that is combined with others; `part` is the part that it changes, if it changes
    only one.
    """

    def __init__(self, slip: Slip, right: Ingredients) -> None:
        self.slip, self.made, self.names = slip, slip.change(right), frozenset(slip.changes)
        parts = {PARTS.get(it, "") for it in self.names}
        self.part = parts.pop() if len(parts) == 1 else ""
        self.key, self.cp_hash, self.message = self.made.key, self.made.cp_hash, self.made.message

    def message_with(self, cp_hash: bytes) -> bytes:
        it = self.made
        return it.message_of(cp_hash, it.newer, it.older, b"".join(it.others), it.attributes)


def hmacs_of(those: Sequence[Slip], right: Ingredients) -> Iterator[tuple[Slip, Slip, bytes]]:
    """Yields pairs of mistakes, with the HMAC that each pair produces. In each pair, the inner
    mistake comes first. Likely pairs come first.
    """
    turned = [Turned(it, right) for it in those]
    for first, second in combinations(turned, 2):
        if first.names.isdisjoint(second.names):
            yield first.slip, second.slip, together(first, second, right)
    for inner, outer in product(turned, turned):
        made = upon(inner, outer)
        if made is not None:
            yield inner.slip, outer.slip, made.hmac


def together(first: Turned, second: Turned, right: Ingredients) -> bytes:
    """Returns the HMAC for two mistakes that change different ingredients."""
    parts = first.part, second.part
    if "" in parts or parts[0] == parts[1]:
        return right._replace(**first.slip.changes, **second.slip.changes).hmac
    if KEY not in parts:
        of_hash, of_rest = (first, second) if parts[0] == CP_HASH else (second, first)
        return right.mac_of(right.algorithm, right.key, of_rest.message_with(of_hash.cp_hash))
    of_key, of_text = (first, second) if parts[0] == KEY else (second, first)
    return right.mac_of(right.algorithm, of_key.key, of_text.message)


def upon(inner: Turned, outer: Turned) -> Ingredients | None:
    """Applies the outer mistake to the inner one's result; None if they change different
    ingredients.
    """
    if inner is outer or outer.slip.turn is None or inner.names.isdisjoint(outer.names):
        return None
    changes = outer.slip.turn(inner.made)
    if all(getattr(inner.made, name) == it for name, it in changes.items()):
        return None
    return inner.made._replace(**changes)
