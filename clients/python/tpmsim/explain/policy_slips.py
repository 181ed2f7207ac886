"""Common mistakes ("slips") in a policy digest that was computed elsewhere: finds those that make
exactly the expected digest.

A digest is a chain of links, one for each assertion. A mistake changes one link (policy_values.py,
policy_forms.py), or the set or the order of the links (policy_orders.py). Two mistakes are also
tried together.
"""

from __future__ import annotations

from dataclasses import replace
from itertools import chain, islice
from typing import Iterator, Sequence

from tpmsim.explain import policy_forms, policy_orders, policy_values
from tpmsim.explain.ingredients import Use
from tpmsim.explain.past import Step
from tpmsim.explain.policy_orders import arrangements, Items, orders, others
from tpmsim.explain.policy_values import Turned
from tpmsim.explain.slip import Told
from tpmsim.standard import digest_bytes

# The largest number of links of a digest chain that a search computes, with one mistake and with
# two.
MOST_LINKS, MOST_PAIRED = 50_000, 200_000

# The number of possibly missing assertions that are tried together with another mistake.
LIKELY = 4


class Search:
    """Searches for mistakes that make an expected digest from a session's assertions. Counts the
    tried digests, and stores the changed assertion that it found.
    """

    def __init__(self, use: Use, steps: Sequence[Step], wanted: bytes) -> None:
        self.wanted, algorithm = wanted, use.session.algorithm
        self.zeros, length = bytes(digest_bytes(algorithm)), len(steps) + 1
        self.tried, self.most, self.most_paired = 0, MOST_LINKS // length, MOST_PAIRED // length
        self.items = policy_orders.items_of(algorithm, steps)
        self.missing = policy_orders.missing(use)
        self.alternatives = list(islice(alternatives(use, steps), self.most))
        self.typed = list(islice(typed(use, steps), self.most))
        self.turned: Turned | None = None

    def told(self) -> list[Told]:
        return self.one() or self.two()

    def is_made(self, begin: bytes, items: Items) -> bool:
        self.tried += 1
        for it in items:
            begin = it.link(begin)
        return begin == self.wanted

    def one(self) -> list[Told]:
        for items, told in islice(arrangements(self.items, self.missing), self.most):
            if self.is_made(self.zeros, items):
                return [told]
        found = self.one_turned(self.items, self.alternatives)
        return found or self.one_turned(self.items, self.typed)

    def one_turned(self, items: Items, those: Sequence[Turned]) -> list[Told]:
        """Tries the changed assertions in `those`, one at a time."""
        self.tried += 1
        before = digests_before(self.zeros, items)
        places = {it.place: at for at, it in enumerate(items) if it.place is not None}
        for it in those:
            at = places.get(it.place)
            if at is not None and self.is_made(it.link(before[at]), items[at + 1 :]):
                self.turned = it
                return [it.told]
        return []

    def two(self) -> list[Told]:
        return self.two_turned() or self.turned_and_arranged() or self.two_arranged()

    def two_turned(self) -> list[Told]:
        """Tries two changed assertions at a time."""
        until = self.tried + self.most_paired
        for at, first in enumerate(self.alternatives):
            if self.tried >= until:
                break
            later = [it for it in self.alternatives[at + 1 :] if it.place != first.place]
            found = self.one_turned(with_link(self.items, first), later[: until - self.tried])
            if found:
                return [first.told, *found]
        return []

    def turned_and_arranged(self) -> list[Told]:
        """Tries one changed assertion together with one mistake in the set or the order of the
        assertions.
        """
        until = self.tried + self.most_paired
        for items, told in arrangements(self.items, self.missing[:LIKELY]):
            if self.tried >= until:
                break
            found = self.one_turned(items, self.alternatives[: until - self.tried])
            if found:
                return [*found, told]
        return []

    def two_arranged(self) -> list[Told]:
        """Tries two mistakes in the set or the order of the assertions, at most one of them in the
        order.
        """
        likely = self.missing[:LIKELY]
        counted = ((it, arrangements(it[0], likely)) for it in others(self.items, likely))
        ordered = ((it, others(it[0], likely)) for it in orders(self.items))
        pairs = ((first, it) for first, those in chain(counted, ordered) for it in those)
        for (_, told), (items, other) in islice(pairs, self.most_paired):
            if self.is_made(self.zeros, items):
                return [told, other]
        return []


def digests_before(begin: bytes, items: Items) -> list[bytes]:
    """Returns the digests before, between and after these assertions."""
    found = [begin]
    for it in items:
        found.append(it.link(found[-1]))
    return found


def with_link(items: Items, turned: Turned) -> Items:
    return tuple(replace(it, link=turned.link) if it.place == turned.place else it for it in items)


def typed(use: Use, steps: Sequence[Step]) -> Iterator[Turned]:
    """Yields the assertions with one typing error each."""
    return chain.from_iterable(
        policy_values.of_typed(use, place, step) for place, step in enumerate(steps)
    )


def alternatives(use: Use, steps: Sequence[Step]) -> Iterator[Turned]:
    """Yields the assertions with one change each, the most likely changes first."""
    ways = policy_values.of_values, policy_forms.of_texts, policy_values.of_tried
    return chain.from_iterable(
        way(use, place, step) for way in ways for place, step in enumerate(steps)
    )
