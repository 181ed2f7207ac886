"""Prints the image in FILE with some damage: python3 damage.py FILE KIND."""

import hashlib
import sys


def with_digest(text):
    """Returns the text with its last 32 bytes replaced by the digest of the bytes before them."""
    return text[:-32] + hashlib.sha256(text[:-32]).digest()


KINDS = {
    "none": lambda text: text,
    "41 bytes": lambda text: text[:41],
    "cut": lambda text: text[:-1],
    "longer": lambda text: text + b"\0",
    "magic": lambda text: b"t" + text[1:],
    "version": lambda text: text[:5] + b"\3" + text[6:],
    "digest": lambda text: text[:-1] + bytes([text[-1] ^ 1]),
    "body": lambda text: with_digest(text[:16] + b"\xff" * (len(text) - 48) + text[-32:]),
}

file, kind = sys.argv[1:]
with open(file, "rb") as image:
    sys.stdout.buffer.write(KINDS[kind](image.read()))
