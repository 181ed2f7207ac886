"""Reads lists of bytes, in the notations of programming languages and of programs that print dumps.
A list may have several readings. The header of a command or a response shows which one is right.
"""

import re
from typing import Callable, Iterator, Sequence

from tpmsim.faults import TpmsimError

HEX = re.compile(r"[0-9a-fA-F]+")
PREFIXED = re.compile(r"0[xX]([0-9a-fA-F]{1,2})")
DECIMAL = re.compile(r"-?[0-9]{1,3}")
DECIMAL_WORD = re.compile(r"[0-9]{1,5}")
OCTAL = re.compile(r"[0-7]{3}")
OCTAL_WORD = re.compile(r"[01][0-7]{5}")
BITS = re.compile(r"[01]{8}")
# The key of a byte in an object of JavaScript, and the type of a byte in Rust.
DECORATION = re.compile(r'^"?[0-9]+"?:(?=.)|u8$')

Words = Sequence[str]
Reading = Callable[[Words], bytes]


class NoReading(TpmsimError):
    """The words are no bytes in this notation."""


def all_match(form: re.Pattern[str], words: Words) -> None:
    if not all(map(form.fullmatch, words)):
        raise NoReading


def byte(value: int) -> int:
    """Returns a byte that may be written as a signed number."""
    if not -128 <= value < 256:
        raise NoReading
    return value & 0xFF


def prefixed(words: Words) -> bytes:
    """Reads `0x80, 0x1`."""
    all_match(PREFIXED, words)
    return bytes(int(it, 16) for it in words)


def decimal(words: Words) -> bytes:
    """Reads `128 1` and `-128 1`."""
    all_match(DECIMAL, words)
    return bytes(byte(int(it)) for it in words)


def hexadecimal(words: Words) -> bytes:
    """Reads `8001`, `80 01` and `0x80010000`."""
    digits = [it[2:] if it[:2] in ("0x", "0X") else it for it in words]
    all_match(HEX, digits)
    if any(len(it) % 2 for it in digits):
        raise NoReading
    return bytes.fromhex("".join(digits))


def short_hexadecimal(words: Words) -> bytes:
    """Reads `80 1`, with one or two digits for each byte."""
    all_match(HEX, words)
    if any(len(it) > 2 for it in words):
        raise NoReading
    return bytes(int(it, 16) for it in words)


def swapped(words: Words) -> bytes:
    """Reads `0180`: words of two, four or eight bytes, with the lowest byte first."""
    all_match(HEX, words)
    if any(len(it) not in (4, 8, 16) for it in words[:-1]) or len(words[-1]) % 2:
        raise NoReading
    return b"".join(bytes.fromhex(it)[::-1] for it in words)


def octal(words: Words) -> bytes:
    """Reads `200 001`."""
    all_match(OCTAL, words)
    return bytes(byte(int(it, 8)) for it in words)


def octal_words(words: Words) -> bytes:
    """Reads `000600`: words of two bytes, with the lowest byte first."""
    all_match(OCTAL_WORD, words)
    return b"".join(int(it, 8).to_bytes(2, "little") for it in words)


def decimal_words(words: Words) -> bytes:
    """Reads `00384`: words of two bytes, with the lowest byte first."""
    all_match(DECIMAL_WORD, words)
    if any(int(it) > 0xFFFF for it in words):
        raise NoReading
    return b"".join(int(it).to_bytes(2, "little") for it in words)


def bits(words: Words) -> bytes:
    """Reads `10000000 00000001`."""
    all_match(BITS, words)
    return bytes(int(it, 2) for it in words)


READINGS: tuple[Reading, ...] = (
    *(prefixed, hexadecimal, decimal, swapped, octal, octal_words, bits, short_hexadecimal),
    decimal_words,
)


def readings_of(words: Words) -> Iterator[bytes]:
    """Yields the bytes that words may stand for."""
    if not words:
        return
    for read in READINGS:
        try:
            yield read(words)
        except NoReading:
            pass


SEPARATOR = re.compile(r"[\s,;]+")
REMARKS = re.compile(r"/\*.*?\*/|//[^\n]*|#[^\n]*", re.DOTALL)


def words_of(text: str) -> list[str]:
    """Returns the words of a list, without remarks and without what a language adds to a byte."""
    words = SEPARATOR.split(REMARKS.sub(" ", text).replace('": ', '":').strip(" \t\r\n,;"))
    return [DECORATION.sub("", it) for it in words if it]


# A text with escapes, such as b'\x80\x01' or "\200\001".
ESCAPE = re.compile(r"\\(?:x([0-9a-fA-F]{2})|([0-7]{1,3})|(.))", re.DOTALL)
NAMED = {"n": 10, "r": 13, "t": 9, "a": 7, "b": 8, "f": 12, "v": 11, "0": 0, "e": 27}


def unescaped(text: str, octal_digits: int) -> bytes:
    """Returns the bytes of a text with escapes. After `\\0`, Rust has no more octal digits."""
    found, at = bytearray(), 0
    form = ESCAPE if octal_digits > 1 else re.compile(ESCAPE.pattern.replace("{1,3}", "{1,1}"))
    for it in form.finditer(text):
        found += text[at : it.start()].encode("latin-1", "replace")
        hexadecimal_digits, octal_number, name = it.groups()
        if hexadecimal_digits or octal_number:
            value = int(hexadecimal_digits or octal_number, 16 if hexadecimal_digits else 8)
        else:
            value = NAMED.get(name, ord(name))
        found.append(value & 0xFF)
        at = it.end()
    return bytes(found + text[at:].encode("latin-1", "replace"))
