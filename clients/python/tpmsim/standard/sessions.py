"""Computations for sessions, which the TPM and its caller share (TPM 2.0 Library, Part 1)."""

import functools
import hashlib
import hmac
from typing import Callable, Iterable

from tpmsim.standard import aes
from tpmsim.standard.aes_tables import encrypt_block
from tpmsim.standard.frames import number, SHA1, SHA256, XOR

HASHES = {SHA1: hashlib.sha1, SHA256: hashlib.sha256}
HASH_WORDS = {SHA1: "sha1", SHA256: "sha256"}

SIZES = {algorithm: made().digest_size for algorithm, made in HASHES.items()}

# The largest size of a digest, a nonce and an authorization value.
DIGEST_BYTES = 32

SUCCESS = 0


def digest_bytes(algorithm: int) -> int:
    """Returns the size of a digest, in bytes."""
    return SIZES[algorithm]


def digest(algorithm: int, text: bytes) -> bytes:
    """Returns the digest of a text."""
    return HASHES[algorithm](text).digest()


def mac(algorithm: int, key: bytes, text: bytes) -> bytes:
    """Returns the HMAC of a text."""
    return hmac.digest(key, text, HASH_WORDS[algorithm])


def trimmed(auth_value: bytes) -> bytes:
    """Removes trailing zeros, which do not count in an authorization value (19.6.4.3)."""
    return auth_value.rstrip(b"\0")


def name_of(handle: int) -> bytes:
    """Returns the Name of an entity that is neither an object nor an NV index: its handle (section
    16).
    """
    return number(handle, 4)


def kdfa(algorithm: int, key: bytes, label: bytes, newer: bytes, older: bytes, size: int) -> bytes:
    """SP 800-108 in counter mode, as the TPM uses it (11.4.9): returns the first `size` bytes."""
    given, count = b"", 0
    while len(given) < size:
        count += 1
        text = number(count, 4) + label + b"\0" + newer + older + number(8 * size, 4)
        given += mac(algorithm, key, text)
    return given[:size]


def session_key(algorithm: int, auth_value: bytes, nonce_tpm: bytes, nonce_caller: bytes) -> bytes:
    """Returns a bound session's key, made from the authorization value that the bind entity had
    when the session was started (19.6.8).
    """
    size = digest_bytes(algorithm)
    return kdfa(algorithm, auth_value, b"ATH", nonce_tpm, nonce_caller, size)


def command_hash(algorithm: int, code: int, names: Iterable[bytes], parameters: bytes) -> bytes:
    """Returns cpHash (18.7), the digest of the command code, the handles' Names, and the
    parameters as sent.
    """
    return digest(algorithm, number(code, 4) + b"".join(names) + parameters)


def response_hash(algorithm: int, code: int, parameters: bytes) -> bytes:
    """Returns rpHash (18.8), the digest of SUCCESS, the command code, and the response parameters
    as sent, encrypted or not.
    """
    return digest(algorithm, number(SUCCESS, 4) + number(code, 4) + parameters)


def entry_hmac(
    algorithm: int,
    key: bytes,
    parameters: bytes,
    newer: bytes,
    older: bytes,
    others: list[bytes],
    attributes: int,
) -> bytes:
    """Returns the hmac of an entry (19.6.5), computed from its cpHash or rpHash. If a command's
    first entry authorizes, `others` are the nonces of the other sessions that decrypt, followed by
    those of the sessions that encrypt.
    """
    text = parameters + newer + older + b"".join(others) + number(attributes, 1)
    return mac(algorithm, key, text)


def encrypted(
    cipher: int,
    algorithm: int,
    key: bytes,
    newer: bytes,
    older: bytes,
    data: bytes,
    block_cipher: aes.BlockCipher = encrypt_block,
    by_aes: Callable[..., bytes] = aes.cfb_encrypt,
) -> bytes:
    """Encrypts with a session's cipher: XOR with masks of the data's size (21.2), or AES with
    `block_cipher` (21.3).
    """
    if cipher == XOR:
        return aes.xor(data, kdfa(algorithm, key, b"XOR", newer, older, len(data)))
    both = kdfa(algorithm, key, b"CFB", newer, older, 2 * aes.BLOCK)
    return by_aes(both[: aes.BLOCK], both[aes.BLOCK :], data, block_cipher)


# Decrypts what `encrypted` encrypts; takes the same arguments.
decrypted = functools.partial(encrypted, by_aes=aes.cfb_decrypt)


def first_encrypted(
    cipher: int,
    algorithm: int,
    key: bytes,
    newer: bytes,
    older: bytes,
    parameters: bytes,
    block_cipher: aes.BlockCipher = encrypt_block,
    change: Callable[..., bytes] = encrypted,
) -> bytes:
    """Encrypts the contents of the first sized buffer in the parameters, but not its size; returns
    the parameters.
    """
    given = cipher, algorithm, key, newer, older
    return on_first_buffer(lambda data: change(*given, data, block_cipher), parameters)


first_decrypted = functools.partial(first_encrypted, change=decrypted)


def on_first_buffer(change: Callable[[bytes], bytes], parameters: bytes) -> bytes:
    """Changes the contents of the first sized buffer in the parameters, but not its size; returns
    the parameters.
    """
    size = int.from_bytes(parameters[:2], "big")
    return parameters[:2] + change(parameters[2 : 2 + size]) + parameters[2 + size :]
