"""Hashes and HMACs in progress (FIPS 180-4 and 198-1). Unlike an object of hashlib, they show their
whole state, so a state text can contain it.
"""

from __future__ import annotations

import struct
from dataclasses import dataclass, replace
from typing import Callable, Self

from tpmsim.standard import digest, number, SHA1, SHA256

BLOCK, WORD = 64, 2**32 - 1
MOST_LENGTH = 2**64

Words = tuple[int, ...]

# The initial hash values (FIPS 180-4, 5.3.1 and 5.3.3).
INITIAL: dict[int, Words] = {
    SHA1: (0x67452301, 0xEFCDAB89, 0x98BADCFE, 0x10325476, 0xC3D2E1F0),
    SHA256: (
        *(0x6A09E667, 0xBB67AE85, 0x3C6EF372, 0xA54FF53A),
        *(0x510E527F, 0x9B05688C, 0x1F83D9AB, 0x5BE0CD19),
    ),
}


def primes(count: int) -> list[int]:
    found: list[int] = []
    candidate = 2
    while len(found) < count:
        if all(candidate % it for it in found):
            found.append(candidate)
        candidate += 1
    return found


def cube_root(value: int) -> int:
    """Returns the largest integer whose cube is at most `value`."""
    low, high = 0, 1 << (value.bit_length() // 3 + 1)
    while low < high:
        middle = (low + high + 1) // 2
        low, high = (middle, high) if middle ** 3 <= value else (low, middle - 1)
    return low


# FIPS 180-4, 4.2.2: the first 32 bits of the fractional parts of the cube roots of the first 64
# primes.
CONSTANTS = [cube_root(it << 96) & WORD for it in primes(64)]


def rotated(word: int, bits: int) -> int:
    """Returns a word, rotated to the left."""
    return (word << bits | word >> (32 - bits)) & WORD


def added(words: Words, others: Words) -> Words:
    return tuple((one + other) & WORD for one, other in zip(words, others))


def compress_sha1(words: Words, block: bytes) -> Words:
    """Returns the hash value after one more block (FIPS 180-4, 6.1.2)."""
    schedule = list(struct.unpack(">16I", block))
    for at in range(16, 80):
        mixed = schedule[at - 3] ^ schedule[at - 8] ^ schedule[at - 14] ^ schedule[at - 16]
        schedule.append(rotated(mixed, 1))
    a, b, c, d, e = words
    for at, word in enumerate(schedule):
        if at < 20:
            function, constant = b & c ^ ~b & d, 0x5A827999
        elif at < 40:
            function, constant = b ^ c ^ d, 0x6ED9EBA1
        elif at < 60:
            function, constant = b & c ^ b & d ^ c & d, 0x8F1BBCDC
        else:
            function, constant = b ^ c ^ d, 0xCA62C1D6
        a, b, c, d, e = (
            *((rotated(a, 5) + function + e + constant + word) & WORD, a),
            *(rotated(b, 30), c, d),
        )
    return added(words, (a, b, c, d, e))


def compress_sha256(words: Words, block: bytes) -> Words:
    """Returns the hash value after one more block (FIPS 180-4, 6.2.2)."""
    schedule = list(struct.unpack(">16I", block))
    for at in range(16, 64):
        early, late = schedule[at - 15], schedule[at - 2]
        early = rotated(early, 25) ^ rotated(early, 14) ^ early >> 3
        late = rotated(late, 15) ^ rotated(late, 13) ^ late >> 10
        schedule.append((schedule[at - 16] + early + schedule[at - 7] + late) & WORD)
    a, b, c, d, e, f, g, h = words
    for constant, word in zip(CONSTANTS, schedule):
        first = rotated(e, 26) ^ rotated(e, 21) ^ rotated(e, 7)
        first += h + (e & f ^ ~e & g) + constant + word
        second = rotated(a, 30) ^ rotated(a, 19) ^ rotated(a, 10)
        second += a & b ^ a & c ^ b & c
        a, b, c, d, e, f, g, h = (first + second) & WORD, a, b, c, (d + first) & WORD, e, f, g
    return added(words, (a, b, c, d, e, f, g, h))


COMPRESS: dict[int, Callable[[Words, bytes], Words]] = {
    SHA1: compress_sha1,
    SHA256: compress_sha256,
}


@dataclass(frozen=True)
class HashState:
    """A hash in progress: the hash value after the last whole block, the current block, and the
    number of bytes so far. In the current block, the bytes after the latest byte are still those of
    the previous block, or zeros in the first block.
    """

    algorithm: int
    words: Words
    block: bytes = bytes(BLOCK)
    length: int = 0

    @classmethod
    def empty(cls, algorithm: int) -> Self:
        return cls(algorithm, INITIAL[algorithm])

    def after(self, data: bytes) -> Self:
        """Returns the state after more bytes."""
        words, block, length = self.words, bytearray(self.block), self.length
        while data:
            at = length % BLOCK
            part, data = data[: BLOCK - at], data[BLOCK - at :]
            block[at : at + len(part)] = part
            length = (length + len(part)) % MOST_LENGTH
            if at + len(part) == BLOCK:
                words = COMPRESS[self.algorithm](words, bytes(block))
        return replace(self, words=words, block=bytes(block), length=length)

    @property
    def digest(self) -> bytes:
        zeros = bytes((119 - self.length % BLOCK) % BLOCK)
        padding = b"\x80" + zeros + number(8 * self.length % MOST_LENGTH, 8)
        return b"".join(number(it, 4) for it in self.after(padding).words)


def masked(key: bytes, mask: int) -> bytes:
    return bytes(it ^ mask for it in key)


@dataclass(frozen=True)
class HmacState:
    """An HMAC in progress: the inner hash, and the outer hash after the masked key."""

    inner: HashState
    outer: HashState

    @classmethod
    def of_key(cls, algorithm: int, key: bytes) -> Self:
        whole = (key if len(key) <= BLOCK else digest(algorithm, key)).ljust(BLOCK, b"\0")
        empty = HashState.empty(algorithm)
        return cls(empty.after(masked(whole, 0x36)), empty.after(masked(whole, 0x5C)))

    def after(self, data: bytes) -> Self:
        """Returns the state after more bytes of the text."""
        return replace(self, inner=self.inner.after(data))

    @property
    def digest(self) -> bytes:
        return self.outer.after(self.inner.digest).digest
