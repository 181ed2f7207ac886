"""An assertion of a policy with different values: different PCR values, Names, or values that the
user asked to try.
"""

from __future__ import annotations

from dataclasses import dataclass
from itertools import islice, permutations
from typing import Any, Callable, Iterator, Sequence

from tpmsim.explain.forms import mistypings, NAME_FORMS
from tpmsim.explain.ingredients import Use
from tpmsim.explain.past import Banks, Step, values_digest
from tpmsim.explain.slip import other_hash, Told
from tpmsim.explain.slip_hashes import public_names
from tpmsim.explain.words import algorithm_words, bytes_words, handle_words, localities_words
from tpmsim.policies.written import Said
from tpmsim.standard import CC, digest, frames, number, policy
from tpmsim.standard.command_names import NAMES

# A function from the digest before an assertion to the digest after it.
Link = Callable[[bytes], bytes]


@dataclass(frozen=True)
class Turned:
    """A changed assertion, and its position in the policy."""

    place: int
    link: Link
    told: Told
    banks: Banks | None = None


def link_of(algorithm: int, step: Step) -> Link:
    update = step.said.update(algorithm)
    if update.forgets or update.reference is not None:
        return lambda old: step.after(algorithm, old)
    text = number(update.code, 4) + update.about
    return lambda old: digest(algorithm, old + text)


def turned(use: Use, place: int, step: Step, told: Told, banks: Banks | None = None) -> Turned:
    return Turned(place, link_of(use.session.algorithm, step), told, banks)


def of_values(use: Use, place: int, step: Step) -> Iterator[Turned]:
    """Yields the assertion with different values."""
    if step.selected is not None:
        yield from of_pcrs(use, place, step)
    if step.handle is not None:
        yield from of_names(use, place, step, step.handle)
    for values, words in other_values(step):
        other = Step(step.line, Said(step.code, values), "")
        told = "other value in a policy", f"With {words} in {step.code.name} it would match."
        yield turned(use, place, other, told)


def other_values(step: Step) -> Iterator[tuple[tuple[Any, ...], str]]:
    own = step.said.values
    match step.code:
        case CC.PolicyCommandCode:
            turned_code = int.from_bytes(number(own[0], 4)[::-1], "big")
            yield (turned_code,), f"the command code {turned_code:08x}, its lowest byte first,"
            yield from (((code,), name) for code, name in NAMES.items() if code != own[0])
        case CC.PolicyNvWritten:
            yield (1 - own[0],), str(1 - own[0])
        case CC.PolicyLocality:
            for bits in range(1, policy.ALL_LOCALITIES + 1):
                if bits != own[0]:
                    yield (bits,), f"localities {localities_words(bits)}"
        case CC.PolicyOR:
            for it in islice(permutations(own), 1, 120):
                yield it, "its branches in another order"
        case CC.PolicySecret if own[1]:
            yield (own[0], b""), "an empty policyRef"


def pcr_step(step: Step, selected: Sequence[Any], algorithm: int, banks: Banks) -> Step:
    values = frames.selection(*selected), values_digest(algorithm, selected, banks)
    return Step(step.line, Said(step.code, values), "")


def of_pcrs(use: Use, place: int, step: Step) -> Iterator[Turned]:
    """Yields an assertion with different values of its PCRs, the latest first; with different
    banks; and with a different PCR.
    """
    algorithm, selected, past = use.session.algorithm, step.selected or [], use.scene.past
    now = past.told_banks.get(step.line, use.scene.model.banks)
    pairs = list(zip(past.pcr_states, [*past.pcr_states[1:], None]))
    for (_, banks), later in reversed(pairs):
        if later is not None:
            words = f"With the PCRs as they were before line {later[0]} it would match"
            other = pcr_step(step, selected, algorithm, banks)
            yield turned(use, place, other, ("PCRs moved", words), banks)
    for others in other_banks(selected):
        said = " and ".join(dict.fromkeys(algorithm_words(bank) for bank, _ in others))
        for when, banks in [("", now), *((it, at[1]) for at, it in before_words(pairs))]:
            words = f"With the PCRs of the bank {said}{when} it would match."
            other = pcr_step(step, others, algorithm, banks)
            yield turned(use, place, other, ("other bank", words))
    for pcr in range(len(now[frames.SHA256])) if len(selected) == 1 else ():
        bank, pcrs = selected[0]
        if len(pcrs) == 1 and pcrs[0] != pcr:
            words = f"With PCR {pcr} instead of PCR {pcrs[0]} it would match."
            other = pcr_step(step, [(bank, (pcr,))], algorithm, now)
            yield turned(use, place, other, ("another PCR", words))


def before_words(pairs: Sequence[Any]) -> Iterator[tuple[Any, str]]:
    for state, later in reversed(pairs):
        if later is not None:
            yield state, f", as they were before line {later[0]},"


def other_banks(selected: Sequence[Any]) -> Iterator[list[Any]]:
    """Yields the same PCRs in the other bank or in both; for two banks, the banks swapped, or one
    of them.
    """
    if len(selected) == 1:
        bank, pcrs = selected[0]
        other = other_hash(bank), pcrs
        yield [other]
        yield [(bank, pcrs), other]
        yield [other, (bank, pcrs)]
    elif len(selected) > 1:
        yield list(reversed(selected))
        yield from ([it] for it in selected)


def of_names(use: Use, place: int, step: Step, handle: int) -> Iterator[Turned]:
    said, name = handle_words(handle), step.given
    for since in use.scene.past.names.get(handle, []):
        if since.value != name:
            words = f"the Name that {said} had since line {since.line}"
            told = "old Name in a policy", f"With {words} in {step.code.name} it would match."
            yield turned(use, place, step.but(since.value), told)
    others = [(it.name, f"the Name of {said} {it.words}", it.turn(name)) for it in NAME_FORMS]
    held = use.scene.model.held(handle)
    if held is not None:
        handles = "handle as Name", f"the handle {handle:08x} instead of its Name"
        others.append((*handles, number(handle, 4)))
        made = public_names(held.public)
        others += [(slip, f"the Name of {said} {words}", value) for slip, words, value in made]
    for slip, words, value in others:
        if value and value != name:
            told = slip, f"With {words} in {step.code.name} it would match."
            yield turned(use, place, step.but(value), told)


def of_typed(use: Use, place: int, step: Step) -> Iterator[Turned]:
    """Yields assertions in which policyRef has a typing error."""
    if step.code != CC.PolicySecret:
        return
    name, reference = step.said.values
    for value in mistypings(reference):
        words = f"With the policyRef {bytes_words(value)} in {step.code.name} it would match."
        other = Step(step.line, Said(step.code, (name, value)), "")
        yield turned(use, place, other, ("policyRef mistyped", words))


def of_tried(use: Use, place: int, step: Step) -> Iterator[Turned]:
    """Yields assertions in which one buffer is a value that the user asked to try."""
    for value in use.scene.tried:
        for at, own in enumerate(step.said.values):
            if isinstance(own, bytes):
                values = (*step.said.values[:at], value, *step.said.values[at + 1 :])
                tried = f"With the tried value, {bytes_words(value)}"
                words = f"{tried}, in {step.code.name} it would match."
                other = Step(step.line, Said(step.code, values), "")
                yield turned(use, place, other, ("tried value", words))
