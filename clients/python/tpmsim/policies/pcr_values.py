"""PCRs with their values, as a policy in words may contain them: `sha256:7=HEX,11=HEX`. Each hash
algorithm turns them into a digest for TPM2_PolicyPCR.
"""

from __future__ import annotations

from dataclasses import dataclass

from tpmsim.standard import digest, digest_bytes, frames, HASH_WORDS, PCRS
from tpmsim.standard.lines import bytes_of, HASHES, hex_word, JOIN, number_up_to, Wrong

# The PCRs of a bank with their values, in order.
Pairs = tuple[tuple[int, bytes], ...]


@dataclass(frozen=True)
class PcrValues:
    """For each bank, its hash algorithm and its PCRs with their values."""

    banks: tuple[tuple[int, Pairs], ...]

    @property
    def selection(self) -> bytes:
        """The encoding of the PCR selection."""
        return frames.selection(*((it, [pcr for pcr, _ in pairs]) for it, pairs in self.banks))

    def digest(self, algorithm: int) -> bytes:
        """Returns the digest of the values, joined in the order of the selection."""
        values = [value for _, pairs in self.banks for _, value in pairs]
        return digest(algorithm, b"".join(values))

    @property
    def word(self) -> str:
        """The PCRs and their values, as one word of a policy's text."""
        banks = [f"{HASH_WORDS[it]}:{','.join(map(pair_word, pairs))}" for it, pairs in self.banks]
        return JOIN.decode("ascii").join(banks)


def pair_word(pair: tuple[int, bytes]) -> str:
    """Returns the word that encodes a PCR and its value."""
    return f"{pair[0]}={hex_word(pair[1])}"


def read_values(word: bytes) -> PcrValues:
    """Parses the word of PCRs with their values; raises Wrong for any other word."""
    return PcrValues(tuple(map(read_bank, word.split(JOIN))))


def read_bank(piece: bytes) -> tuple[int, Pairs]:
    """Reads the PCRs of a bank, with their values."""
    name, _, rest = piece.partition(b":")
    if name not in HASHES:
        raise Wrong
    algorithm = HASHES[name]
    found = dict(read_pair(algorithm, it) for it in rest.split(b","))
    return algorithm, tuple(sorted(found.items()))


def read_pair(algorithm: int, piece: bytes) -> tuple[int, bytes]:
    """Reads a PCR with its value."""
    number, _, value = piece.partition(b"=")
    found = bytes_of(value)
    if len(found) != digest_bytes(algorithm):
        raise Wrong
    return number_up_to(PCRS[-1], number), found
