"""Finds which assertions a policy contains, and in which order. One may be missing, added or
repeated, or they may be in a different order.
"""

from __future__ import annotations

from dataclasses import dataclass
from itertools import islice, permutations
from typing import Iterator, Sequence

from tpmsim.explain.ingredients import Use
from tpmsim.explain.past import Step
from tpmsim.explain.policy_values import Link, link_of
from tpmsim.explain.slip import Told
from tpmsim.explain.words import listed
from tpmsim.policies.written import Said
from tpmsim.standard import CC, policy

# With more assertions than this, only one is moved; otherwise all orders are tried.
MOST_ORDERED = 5


@dataclass(frozen=True)
class Item:
    """An assertion with its description, and its position if the session made it."""

    link: Link
    words: str
    place: int | None = None


Items = tuple[Item, ...]
Arranged = tuple[Items, Told]


def items_of(algorithm: int, steps: Sequence[Step]) -> Items:
    return tuple(
        Item(link_of(algorithm, it), f"{it.code.name} of line {it.line}", at)
        for at, it in enumerate(steps)
    )


def arrangements(items: Items, missing: Sequence[Item]) -> Iterator[Arranged]:
    """Yields arrangements of the assertions with one mistake each. `missing` contains the
    assertions that may be missing.
    """
    yield from without(items)
    yield from orders(items)
    yield from with_another(items, missing)
    yield from twice(items)


def others(items: Items, missing: Sequence[Item]) -> Iterator[Arranged]:
    """Yields arrangements with one mistake each, in which the order is correct."""
    yield from without(items)
    yield from with_another(items, missing)
    yield from twice(items)


def without(items: Items) -> Iterator[Arranged]:
    for at, it in enumerate(items):
        words = f"Without {it.words} it would match."
        yield (*items[:at], *items[at + 1 :]), ("assertion too many", words)


def twice(items: Items) -> Iterator[Arranged]:
    """Yields arrangements that repeat one assertion, or that start from an empty buffer instead of
    a zero digest.
    """
    for at, it in enumerate(items):
        words = f"With {it.words} twice it would match."
        yield (*items[:at], it, *items[at:]), ("assertion twice", words)
    words = "If it began with nothing instead of zeros, as many as a digest has, it would match."
    yield (NOTHING, *items), ("policy digest without its zeros", words)


NOTHING = Item(lambda old: b"", "nothing")


def orders(items: Items) -> Iterator[Arranged]:
    if len(items) > MOST_ORDERED:
        yield from moves(items)
        return
    for order in islice(permutations(items), 1, None):
        yield order, order_told(order)


def moves(items: Items) -> Iterator[Arranged]:
    """Yields arrangements in which one assertion is at a different position."""
    seen = {tuple(range(len(items)))}
    for at in range(len(items)):
        left = [it for it in range(len(items)) if it != at]
        for to in range(len(items)):
            places = (*left[:to], at, *left[to:])
            if places not in seen:
                seen.add(places)
                order = tuple(items[it] for it in places)
                yield order, order_told(order)


def order_told(order: Items) -> Told:
    those = listed(it.words for it in order)
    return "order of assertions", f"In another order it would match: {those}."


def with_another(items: Items, missing: Sequence[Item]) -> Iterator[Arranged]:
    for it in missing:
        for at in range(len(items), -1, -1):
            where = "after these" if at == len(items) else f"before {items[at].words}"
            words = f"With {it.words} {where} it would match."
            yield (*items[:at], it, *items[at:]), ("assertion missing", words)


def missing(use: Use) -> list[Item]:
    """Returns the assertions that may be missing, the most likely ones first."""
    named = Said(CC.PolicyCommandCode, (use.code,))
    those = [(Said(CC.PolicyAuthValue), "PolicyAuthValue or PolicyPassword")]
    those.append((named, f"PolicyCommandCode {use.code.name}"))
    those += [(Said(CC.PolicyNvWritten, (it,)), f"PolicyNvWritten {it}") for it in (0, 1)]
    bits = range(1, policy.ALL_LOCALITIES + 1)
    single = [it for it in bits if it & (it - 1) == 0]
    for it in (*single, *(it for it in bits if it not in single)):
        those.append((Said(CC.PolicyLocality, (it,)), f"PolicyLocality {it:#x}"))
    algorithm = use.session.algorithm
    return [Item(link_of(algorithm, Step(0, said, words)), words) for said, words in those]
