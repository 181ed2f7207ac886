"""AES-128 with tables, which is faster than the cipher of aes.py."""

import functools
import struct

from tpmsim.standard import aes

WORD = 0xFFFF_FFFF


def turned(word: int) -> int:
    """Rotates a word of four bytes, so that its last byte comes first."""
    return word >> 8 | word << 24 & WORD


def column_of(byte: int) -> int:
    """Returns the word of four bytes that a byte in row 0 contributes to its column in a round."""
    substituted = aes.S_BOX[byte]
    doubled, tripled = aes.times(substituted, 2), aes.times(substituted, 3)
    return int.from_bytes(bytes((doubled, substituted, substituted, tripled)), "big")


# What each byte value contributes to its column in one round: ROWS[r][b] is the word of four bytes
# for the byte b in row r.
ROWS = [[column_of(byte) for byte in range(256)]]
for _ in range(3):
    ROWS.append([turned(it) for it in ROWS[-1]])


@functools.lru_cache(maxsize=256)
def key_words(key: bytes) -> tuple[int, ...]:
    return struct.unpack(">44I", b"".join(aes.round_keys(key)))


def encrypt_block(key: bytes, block: bytes) -> bytes:
    """Encrypts a block with AES-128, using the tables."""
    words, r0, r1, r2, r3 = key_words(key), *ROWS
    a, b, c, d = (it ^ word for it, word in zip(struct.unpack(">4I", block), words))
    for at in range(4, 4 * aes.ROUNDS, 4):
        a, b, c, d = (
            r0[a >> 24] ^ r1[b >> 16 & 255] ^ r2[c >> 8 & 255] ^ r3[d & 255] ^ words[at],
            r0[b >> 24] ^ r1[c >> 16 & 255] ^ r2[d >> 8 & 255] ^ r3[a & 255] ^ words[at + 1],
            r0[c >> 24] ^ r1[d >> 16 & 255] ^ r2[a >> 8 & 255] ^ r3[b & 255] ^ words[at + 2],
            r0[d >> 24] ^ r1[a >> 16 & 255] ^ r2[b >> 8 & 255] ^ r3[c & 255] ^ words[at + 3],
        )
    state = struct.pack(">4I", a, b, c, d).translate(aes.S_BOX)
    return aes.xor(aes.shift_rows(state), struct.pack(">4I", *words[-4:]))
