"""A table of wrong ways to assemble the text that is hashed for an assertion. The descriptions are
in slips.json.
"""

from dataclasses import dataclass
from typing import Any, Callable, Iterator

from tpmsim.explain.ingredients import Use
from tpmsim.explain.past import Step
from tpmsim.explain.policy_values import turned, Turned
from tpmsim.explain.slip import other_hash, SLIPS
from tpmsim.explain.words import algorithm_words
from tpmsim.policies.written import Update
from tpmsim.standard import CC, digest, digest_bytes, number, sized


# A function from the previous digest to the next, which returns None if it does not apply to this
# assertion.
TextLink = Callable[[Step, Update, int, bytes], bytes | None]


@dataclass(frozen=True)
class Text:
    """A row of the table: a name, a description, and a function between digests."""

    name: str
    words: str
    link: TextLink


def pcr_text(parts: Callable[[int, bytes, bytes], bytes | None]) -> Any:
    """Returns the function of a PolicyPCR row. `parts` makes the text after the command code, from
    the selection and the digest.
    """

    def link(step: Step, update: Update, algorithm: int, old: bytes) -> bytes | None:
        if step.selected is None:
            return None
        found = parts(algorithm, *step.said.values)
        return None if found is None else digest(algorithm, old + number(update.code, 4) + found)

    return link


def plain_text(made: Callable[[int, Update, bytes], bytes | None]) -> Any:
    return lambda step, update, algorithm, old: made(algorithm, update, old)


def by_password(algorithm: int, update: Update, old: bytes) -> bytes | None:
    is_value = update.code == CC.PolicyAuthValue
    return digest(algorithm, old + number(CC.PolicyPassword, 4)) if is_value else None


def without_reference(algorithm: int, update: Update, old: bytes) -> bytes | None:
    """Uses one hash that includes policyRef, instead of two hashes."""
    if update.reference is None:
        return None
    return digest(algorithm, old + number(update.code, 4) + update.about + update.reference)


def old_before_or(algorithm: int, update: Update, old: bytes) -> bytes | None:
    """Includes the previous digest in the hash of a PolicyOR."""
    return (
        digest(algorithm, old + number(update.code, 4) + update.about) if update.forgets else None
    )


def or_without_zeros(algorithm: int, update: Update, old: bytes) -> bytes | None:
    return digest(algorithm, number(update.code, 4) + update.about) if update.forgets else None


def unhashed_arguments(algorithm: int, update: Update, old: bytes) -> bytes | None:
    """Uses PolicyNV's operand, offset and operation themselves, instead of their hash."""
    if not update.apart:
        return None
    name = update.about[digest_bytes(algorithm) :]
    return digest(algorithm, old + number(update.code, 4) + b"".join(update.apart) + name)


LINKS: dict[str, TextLink] = {
    "PCR digest before the selection": pcr_text(
        lambda algorithm, selection, given: given + selection
    ),
    "PCR digest with its size": pcr_text(
        lambda algorithm, selection, given: selection + sized(given)
    ),
    "selection left out": pcr_text(lambda algorithm, selection, given: given),
    "PCR digest left out": pcr_text(lambda algorithm, selection, given: selection),
    "code of PolicyPassword": plain_text(by_password),
    "policyRef in one hash": plain_text(without_reference),
    "PolicyOR after a digest": plain_text(old_before_or),
    "PolicyOR without its zeros": plain_text(or_without_zeros),
    "PolicyNV's arguments not hashed": plain_text(unhashed_arguments),
    "policy without its code": plain_text(
        lambda algorithm, it, old: digest(algorithm, old + it.about)
    ),
    "policy's code first": plain_text(
        lambda algorithm, it, old: digest(algorithm, number(it.code, 4) + old + it.about)
    ),
    "policy's code in two bytes": plain_text(
        lambda algorithm, it, old: digest(algorithm, old + number(it.code, 2) + it.about)
    ),
}
TEXTS = [Text(name, SLIPS["policy"][name], link) for name, link in LINKS.items()]


def of_texts(use: Use, place: int, step: Step) -> Iterator[Turned]:
    algorithm = use.session.algorithm
    update = step.said.update(algorithm)
    zeros = bytes(digest_bytes(algorithm))
    for row in TEXTS:
        if row.link(step, update, algorithm, zeros) is None:
            continue

        def link(old: bytes, row: Text = row) -> bytes:
            return row.link(step, update, algorithm, old) or b""

        told = row.name, f"With {row.words} in {step.code.name} of line {step.line} it would match."
        yield Turned(place, link, told)
    if step.selected is not None:
        yield from of_pcr_digests(use, place, step)


def of_pcr_digests(use: Use, place: int, step: Step) -> Iterator[Turned]:
    """Yields assertions in which the PCR values are hashed with the other hash algorithm, or are
    not hashed at all.
    """
    algorithm, selected, past = use.session.algorithm, step.selected or [], use.scene.past
    states = [past.told_banks.get(step.line, use.scene.model.banks)]
    states += [banks for _, banks in reversed(past.pcr_states)]
    other = algorithm_words(other_hash(algorithm))
    for banks in states:
        plain = b"".join(banks[bank][pcr] for bank, pcrs in selected for pcr in pcrs)
        for name, words, given in (
            (
                "PCR digest by another hash",
                f"the PCRs hashed by {other}",
                digest(other_hash(algorithm), plain),
            ),
            ("PCR values not hashed", "the values of the PCRs instead of their hash", plain),
        ):
            told = name, f"With {words} in PolicyPCR of line {step.line} it would match."
            yield turned(use, place, step.but(given), told)
