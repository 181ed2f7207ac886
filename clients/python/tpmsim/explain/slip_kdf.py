"""The common mistakes in KDFa, which makes a session key, as a table: each has a name, and a change
of KDFa's parts. Their descriptions are in slips.json.
"""

from typing import Callable, Iterator, NamedTuple

from tpmsim.explain.slip import Changes, other_hash, other_words, rows, Told, Turn
from tpmsim.standard import digest_bytes, number, sized
from tpmsim.standard.sessions import mac


class Kdf(NamedTuple):
    """The ingredients of a session key, in the order of KDFa's text."""

    algorithm: int
    value: bytes
    newer: bytes
    older: bytes
    counter: bytes
    label: bytes
    zero: bytes
    bits: bytes

    @property
    def key(self) -> bytes:
        """Returns the session key that KDFa makes. It is a single block."""
        text = self.counter + self.label + self.zero + self.newer + self.older + self.bits
        return mac(self.algorithm, self.value, text)


def right_kdf(algorithm: int, value: bytes, nonce_tpm: bytes, nonce_caller: bytes) -> Kdf:
    bits = number(8 * digest_bytes(algorithm), 4)
    nonces = nonce_tpm, nonce_caller
    return Kdf(algorithm, value, *nonces, number(1, 4), b"ATH", b"\0", bits)


def with_label(label: str) -> Callable[[Kdf], Changes]:
    return lambda it: {"label": label.encode()}


# The labels of other uses of KDFa.
LABELS = "ath", "SECRET", "CFB", "XOR"

TURNS: dict[str, Turn] = {
    "KDFa in bytes": lambda it: {"bits": number(digest_bytes(it.algorithm), 4)},
    "KDFa without its zero": lambda it: {"zero": b""},
    "KDFa with two zeros": lambda it: {"zero": bytes(2)},
    "KDFa without its label": lambda it: {"label": b""},
    **{f"KDFa with another label.{it}": with_label(it) for it in LABELS},
    "KDFa without its counter": lambda it: {"counter": b""},
    "KDFa counts from 0": lambda it: {"counter": bytes(4)},
    "KDFa's counter in one byte": lambda it: {"counter": b"\1"},
    "KDFa without its size": lambda it: {"bits": b""},
    "KDFa's size in two bytes": lambda it: {"bits": it.bits[2:]},
    "session key, nonces swapped": lambda it: {"newer": it.older, "older": it.newer},
    "session key, nonces with their sizes": lambda it: {
        "newer": sized(it.newer),
        "older": sized(it.older),
    },
    "session key, nonceTPM left out": lambda it: {"newer": b""},
    "session key, nonceCaller left out": lambda it: {"older": b""},
    "wrong hash": lambda it: right_kdf(other_hash(it.algorithm), *it[1:4])._asdict(),
}
ROWS = rows("KDFa", TURNS)


def of_kdf(right: Kdf) -> Iterator[tuple[Told, bytes]]:
    """Yields each mistake in a session key, and the key that it makes from the correct parts."""
    said = other_words(right.algorithm)
    for row in ROWS:
        words = "the session key was " + row.words.format(hash=said)
        yield (row.name, words), right._replace(**row.turn(right)).key
