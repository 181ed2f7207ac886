"""Sequence objects (TPM 2.0 Library, Part 1, section 32.4): a hash, an event or an HMAC in
progress, with an authorization value. They belong to the completing layer, and not to the device.
"""

from __future__ import annotations

from dataclasses import dataclass, replace
from typing import Self

from tpmsim.model.hash_states import HashState, HmacState
from tpmsim.standard import DIGEST_BYTES, SHA1, SHA256, trimmed

# The largest number of sequence objects.
SEQUENCES = 3

# The first bytes of data that a TPM generates and signs.
GENERATED_VALUE = bytes.fromhex("ff544347")

# How the data of a hash sequence begin. A number from 0 to 3: so far the data are this number of
# the first bytes of GENERATED_VALUE. GENERATED: they begin with all of its bytes. ORDINARY: they
# begin with other bytes.
GENERATED, ORDINARY = len(GENERATED_VALUE), len(GENERATED_VALUE) + 1


def beginning_after(beginning: int, data: bytes) -> int:
    """Returns how the data begin when these bytes are added to them."""
    for byte in data:
        if beginning in (GENERATED, ORDINARY):
            break
        beginning = beginning + 1 if byte == GENERATED_VALUE[beginning] else ORDINARY
    return beginning


@dataclass(frozen=True)
class HashSequence:
    state: HashState
    beginning: int = 0

    @classmethod
    def of(cls, algorithm: int) -> Self:
        return cls(HashState.empty(algorithm))

    def after(self, data: bytes) -> Self:
        """Returns the sequence after more data."""
        return replace(
            self, state=self.state.after(data), beginning=beginning_after(self.beginning, data)
        )


@dataclass(frozen=True)
class EventSequence:
    """A hash by each algorithm of a PCR bank."""

    sha1: HashState = HashState.empty(SHA1)
    sha256: HashState = HashState.empty(SHA256)

    def after(self, data: bytes) -> Self:
        """Returns the sequence after more data."""
        return replace(self, sha1=self.sha1.after(data), sha256=self.sha256.after(data))


@dataclass(frozen=True)
class HmacSequence:
    state: HmacState

    def after(self, data: bytes) -> Self:
        """Returns the sequence after more data."""
        return replace(self, state=self.state.after(data))


Sequence = HashSequence | EventSequence | HmacSequence

KINDS = {HashSequence: "hash", EventSequence: "event", HmacSequence: "HMAC"}


def padded(auth_value: bytes) -> bytes:
    """Returns an authorization value with zeros appended, up to 32 bytes."""
    return trimmed(auth_value).ljust(DIGEST_BYTES, b"\0")


@dataclass(frozen=True)
class SequenceObject:
    auth: bytes
    sequence: Sequence

    @classmethod
    def of(cls, auth_value: bytes, sequence: Sequence) -> Self:
        return cls(padded(auth_value), sequence)

    def after(self, data: bytes) -> Self:
        """Returns the object after more data of its sequence."""
        return replace(self, sequence=self.sequence.after(data))

    def is_authorized(self, password: bytes) -> bool:
        return padded(password) == self.auth

    @property
    def words(self) -> str:
        return f"the {KINDS[type(self.sequence)]} sequence"


Slots = list[SequenceObject | None]
NO_SEQUENCES: Slots = [None] * SEQUENCES
