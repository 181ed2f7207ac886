"""Finds a caller's common mistakes ("slips") that make exactly the HMAC that it sent: one mistake,
or two.

A mistake is reported only if it makes the HMAC that was sent. The tables of mistakes are in
slip_table.py, slip_kdf.py and forms.py; slip_pairs.py tries two at once.
"""

from __future__ import annotations

from dataclasses import dataclass, field
from itertools import chain, islice
from typing import Iterable, Iterator

from tpmsim.explain import ingredients, slip_hashes, slip_pairs, slip_table, slip_values
from tpmsim.explain.ingredients import Ingredients, Use
from tpmsim.explain.slip import Slip, Told
from tpmsim.explain.words import attribute_words, plural, size_words
from tpmsim.standard import CONTINUE_SESSION, DECRYPT, digest_bytes, ENCRYPT, HASH_WORDS, number
from tpmsim.standard import trimmed

# The largest number of single mistakes that are tried, and of pairs. Each of them costs one HMAC.
MOST_ALONE, MOST_PAIRS = 10_000, 100_000

# The number of old nonces that are tried together with another mistake, and the number of nonces of
# a session that are tried at all, in addition to the session's first nonce.
PAIRED, MOST_NONCES = 3, 100

# The least size of a truncated HMAC. A shorter one would equal the beginning of too many HMACs.
LEAST_CUT = 4


# The hint that the user can try more values.
TRY = "--try VALUE tries one that the log does not have, as another PIN"


@dataclass
class Found:
    """The mistakes that explain an HMAC, and the numbers of mistakes and pairs that were tried."""

    told: list[Told] = field(default_factory=list)
    alone: int = 0
    pairs: int = 0

    def none_words(self) -> str:
        tried = f"{plural(self.alone, 'slip')} and {plural(self.pairs, 'pair')} of them were tried"
        places = "in the key, cpHash, the nonces, the attributes and the hashes"
        return f"none makes this HMAC: {tried}, {places}; {TRY}"


def found(use: Use) -> Found:
    """Returns the mistakes that make the HMAC that was sent. A whole command that was sent again
    also counts as a mistake.
    """
    if not use.entry.hmac:
        words = "the HMAC was left out, which is right only where the key is empty"
        return Found([("HMAC left out", words)])
    search = Search(use)
    explained = search.found
    explained.told = search.told()
    line = use.scene.past.accepted_buffers.get(use.buffer)
    is_past = any(name == "old nonceTPM" for name, _ in explained.told)
    if line is not None and (is_past or not explained.told):
        words = (
            f"the same command was accepted in line {line}, and its nonceTPM has changed since then"
        )
        explained.told = [("sent again", words)]
    return explained


class Search:
    """A search for the mistakes that make an HMAC. It counts what it tries."""

    def __init__(self, use: Use) -> None:
        self.use, self.given, self.found = use, use.entry.hmac, Found()

    def told(self) -> list[Told]:
        use = self.use
        right, tried = use.right(), list[Slip]()
        explained = self.one(right, kept(slips(use), tried)) or self.pair(right, tried)
        return explained or plain_value(use) or another_size(use)

    def one(self, right: Ingredients, those: Iterable[Slip]) -> list[Told]:
        """Returns the first mistake whose HMAC equals, contains or is part of the HMAC that was
        sent.
        """
        for slip in chain([Slip()], islice(those, MOST_ALONE)):
            self.found.alone += bool(slip.told)
            made = slip.change(right).hmac
            if made == self.given:
                return list(slip.told)
            words = "" if len(made) == len(self.given) else self.part_words(made)
            if words:
                return [*slip.told, ("HMAC cut", words)]
        return []

    def part_words(self, made: bytes) -> str:
        """Returns, as text, how the sent HMAC is a part of `made`, or begins with it; empty if it
        does neither.
        """
        given, algorithm = self.given, self.use.session.algorithm
        has = f"{size_words(len(given))}, and one by {HASH_WORDS[algorithm]} has "
        has += str(digest_bytes(algorithm))
        if len(given) < LEAST_CUT:
            return ""
        if made.startswith(given):
            return f"the HMAC is cut, to its first {has}"
        if made.endswith(given):
            return f"the HMAC is cut, to its last {has}"
        return f"there are bytes after the HMAC: it has {has}" if given.startswith(made) else ""

    def pair(self, right: Ingredients, those: list[Slip]) -> list[Told]:
        for first, second, made in islice(slip_pairs.hmacs_of(those, right), MOST_PAIRS):
            self.found.pairs += 1
            if made == self.given:
                return [*first.told, *second.told]
        return []


def kept(those: Iterator[Slip], tried: list[Slip]) -> Iterator[Slip]:
    """Yields the mistakes unchanged, and stores those that may be combined with others."""
    for it in those:
        if it.is_paired:
            tried.append(it)
        yield it


def slips(use: Use) -> Iterator[Slip]:
    """Yields all single mistakes, the most likely ones first."""
    yield from old_nonces(use)
    yield from slip_values.auth_values(use)
    yield from slip_values.session_keys(use)
    yield from slip_hashes.names(use)
    yield from slip_table.of_rows(use.right())
    yield from slip_hashes.parameters(use)
    yield from others(use)
    yield from slip_values.tried(use)
    yield from slip_values.zeros(use)
    yield from other_attributes(use)
    yield from slip_values.mistyped(use)


def plain_value(use: Use) -> list[Told]:
    if not use.auth_value or trimmed(use.entry.hmac) != use.auth_value:
        return []
    words = "the authValue was sent in plain, where its HMAC is expected"
    if use.is_policy:
        words += "; after PolicyPassword it would be right"
    return [("authValue in plain", words)]


def another_size(use: Use) -> list[Told]:
    size, wanted = len(use.entry.hmac), digest_bytes(use.session.algorithm)
    if size == wanted:
        return []
    by = HASH_WORDS[use.session.algorithm]
    sizes = f"it has {size_words(size)}, and one by {by} has {wanted}"
    words = f"{sizes}; it is not a part of any that was tried"
    return [("HMAC of another size", words)]


def old_nonces(use: Use) -> Iterator[Slip]:
    begun = use.begun
    if begun is None:
        return
    latest = begun.nonces[-1].line
    for at, past in enumerate(reversed([begun.nonces[0], *begun.nonces[:-1][-MOST_NONCES:]])):
        words = f"nonceTPM was that of line {past.line}; the latest is that of line {latest}"
        yield Slip.of("old nonceTPM", words, at < PAIRED, older=past.value)
    words = "nonceCaller was that of the session's start, and not the one that the entry has"
    yield Slip.of("old nonceCaller", words, newer=begun.nonce_caller)
    if begun.last_nonce is not None:
        words = "nonceCaller was that of the entry before, and not the one that this entry has"
        yield Slip.of("old nonceCaller", words, newer=begun.last_nonce)


def other_attributes(use: Use) -> Iterator[Slip]:
    """Yields every other value of the entry's attributes. The words say which attributes the
    session's previous entry had.
    """
    last = use.begun.last_attributes if use.begun else None
    own = use.entry.attributes
    sent = f"sent were {attribute_words(own)}"
    likely = {0, CONTINUE_SESSION, last, *(own ^ it for it in (CONTINUE_SESSION, DECRYPT, ENCRYPT))}
    for value in range(0x100):
        if value != own:
            of_before = ", which are those of the entry before" if value == last else ""
            words = f"the attributes were {attribute_words(value)}{of_before}; {sent}"
            is_paired = value in likely
            yield Slip.of("other attributes", words, is_paired, attributes=number(value, 1))


def others(use: Use) -> Iterator[Slip]:
    """Yields mistakes with other sessions: the nonceTPM of the session that decrypts or encrypts,
    in an entry that does not need it; the key or the nonceTPM of another session; and the HMAC of
    another entry.
    """
    model, right = use.scene.model, use.right().others
    for attribute, what in ((DECRYPT, "decrypts"), (ENCRYPT, "encrypts")):
        encrypting = use.command.with_attribute(attribute)
        if encrypting and not right:
            nonce = model.sessions[encrypting[1].handle].nonce_tpm
            words = f"the nonceTPM of the session that {what} was put in, as only another one's is"
            yield Slip.of("other nonces put in", words, others=(nonce,))
    for handle, it in model.sessions.items():
        if it is not use.session:
            words = f"it is by the key and the nonceTPM of another session, {handle:08x}"
            yield Slip.of("another session", words, session_key=it.key, older=it.nonce_tpm)
            words = f"nonceTPM is that of another session, {handle:08x}"
            yield Slip.of("another session's nonceTPM", words, older=it.nonce_tpm)
    for place, entry, _ in use.command.places:
        other = ingredients.use_of(use.scene, place)
        if place != use.place and other is not None and entry.hmac:
            words = f"it is the HMAC of entry {place}"
            yield Slip.of("another entry's HMAC", words, False, **other.right()._asdict())
