"""AES-128 as its standard describes it (FIPS 197), and its cipher feedback mode with whole blocks
(SP 800-38A, 6.3).
"""

import operator
from typing import Callable

BLOCK = 16
ROUNDS = 10

# A cipher for one block. Key and block are 16 bytes long.
BlockCipher = Callable[[bytes, bytes], bytes]


def times(a: int, b: int) -> int:
    """Returns the product in GF(2^8) modulo x^8 + x^4 + x^3 + x + 1."""
    product = 0
    for bit in range(8):
        if b >> bit & 1:
            product ^= a << bit
    for bit in range(14, 7, -1):
        if product >> bit & 1:
            product ^= 0x11B << (bit - 8)
    return product


def inverses() -> dict[int, int]:
    """Returns the inverse of each byte except 0. Each such byte is a power of 3, and 3 to the power
    of 255 is 1.
    """
    powers = [1]
    while len(powers) < 255:
        powers.append(times(powers[-1], 3))
    return {byte: powers[-at] for at, byte in enumerate(powers)}


def substitute(inverse: int) -> int:
    """Applies the affine map to a byte's inverse; 0 counts as the inverse of byte 0."""
    turned = [inverse << n | inverse >> (8 - n) for n in range(5)]
    return (turned[0] ^ turned[1] ^ turned[2] ^ turned[3] ^ turned[4] ^ 0x63) & 0xFF


INVERSES = inverses()
S_BOX = bytes(substitute(INVERSES.get(byte, 0)) for byte in range(256))


# For each byte of a block, its position before ShiftRows.
SHIFTED = operator.itemgetter(*((at + 4 * (at % 4)) % BLOCK for at in range(BLOCK)))


def xor(left: bytes, right: bytes) -> bytes:
    """Returns the XOR of the bytes; the result is as long as the shorter argument."""
    return bytes(map(operator.xor, left, right))


def round_keys(key: bytes) -> list[bytes]:
    """Returns the eleven round keys, of four words each."""
    words, constant = [key[at : at + 4] for at in range(0, BLOCK, 4)], 1
    while len(words) < 4 * (ROUNDS + 1):
        word = words[-1]
        if len(words) % 4 == 0:
            word = bytes(S_BOX[byte] for byte in word[1:] + word[:1])
            word = xor(word, bytes([constant, 0, 0, 0]))
            constant = times(constant, 2)
        words.append(xor(words[-4], word))
    return [b"".join(words[at : at + 4]) for at in range(0, len(words), 4)]


def shift_rows(state: bytes) -> bytes:
    """Returns the state after ShiftRows. Byte r + 4c is in row r and column c; row r rotates by r."""
    return bytes(SHIFTED(state))


def mix_columns(state: bytes) -> bytes:
    """Returns the state after MixColumns."""
    mixed = []
    for column in (state[at : at + 4] for at in range(0, BLOCK, 4)):
        for row in range(4):
            a, b, c, d = column[row:] + column[:row]
            mixed.append(times(a, 2) ^ times(b, 3) ^ c ^ d)
    return bytes(mixed)


def encrypt_block(key: bytes, block: bytes) -> bytes:
    """Encrypts a block with AES-128."""
    first, *middle, last = round_keys(key)
    state = xor(block, first)
    for round_key in middle:
        state = shift_rows(bytes(S_BOX[byte] for byte in state))
        state = xor(mix_columns(state), round_key)
    return xor(shift_rows(bytes(S_BOX[byte] for byte in state)), last)


def cfb_encrypt(
    key: bytes, iv: bytes, text: bytes, block_cipher: BlockCipher = encrypt_block
) -> bytes:
    """Encrypts a text in CFB mode: XORs each block of the text with the encryption of the previous
    result.
    """
    done, before = b"", iv
    for at in range(0, len(text), BLOCK):
        before = xor(text[at : at + BLOCK], block_cipher(key, before))
        done += before
    return done


def cfb_decrypt(
    key: bytes, iv: bytes, text: bytes, block_cipher: BlockCipher = encrypt_block
) -> bytes:
    """Decrypts a text in CFB mode."""
    done, before = b"", iv
    for at in range(0, len(text), BLOCK):
        block = text[at : at + BLOCK]
        done += xor(block, block_cipher(key, before))
        before = block
    return done
