"""Other forms of a value or a Name that a caller may have used instead of it, as tables: the name
of each form, its description, and the conversion to it. If a conversion returns an empty value, the
form does not apply.
"""

import base64
import binascii
import hashlib
from dataclasses import dataclass
from typing import Callable, Iterator

from tpmsim.standard import sized


@dataclass(frozen=True)
class Form:
    name: str
    words: str
    turn: Callable[[bytes], bytes]


def wide(value: bytes) -> bytes:
    return b"".join(bytes([it, 0]) for it in value)


def of_wide(value: bytes) -> bytes:
    return value[::2] if value == wide(value[::2]) else b""


def of_hex(value: bytes) -> bytes:
    try:
        return binascii.unhexlify(value)
    except binascii.Error:
        return b""


def of_sized(value: bytes) -> bytes:
    return value[2:] if value == sized(value[2:]) else b""


# Forms that may be combined, by applying one to the result of another.
NESTED = (
    Form("with a line break", "with a line break after it", lambda it: it + b"\n"),
    Form("as SHA-256", "as its SHA-256 digest", lambda it: hashlib.sha256(it).digest()),
    Form("as SHA-1", "as its SHA-1 digest", lambda it: hashlib.sha1(it).digest()),
    Form("in UTF-16", "in UTF-16", wide),
    Form("as hex", "as the text of its hex", lambda it: it.hex().encode()),
    Form("with its size", "with its size in front", sized),
    Form("with a zero", "with a zero after it", lambda it: it + b"\0"),
    Form("with CR LF", "with CR LF after it", lambda it: it + b"\r\n"),
    Form("with a space", "with a space after it", lambda it: it + b" "),
    Form("in UTF-16 BE", "in big-endian UTF-16", lambda it: wide(b"\0" + it)[1:-1]),
    Form("as HEX", "as the text of its hex in capitals", lambda it: it.hex().upper().encode()),
    Form("as base64", "in base64", base64.b64encode),
    Form("with str:", 'with "str:" in front', lambda it: b"str:" + it),
    Form("with hex:", 'with "hex:" in front', lambda it: b"hex:" + it),
    Form("in quotes", "in quotes", lambda it: b'"' + it + b'"'),
    Form("in capitals", "in capitals", bytes.upper),
    Form("in small letters", "in small letters", bytes.lower),
)

CUTS = (
    Form("cut to 16 bytes", "cut to 16 bytes", lambda it: it[:16]),
    Form("cut to 20 bytes", "cut to 20 bytes", lambda it: it[:20]),
)

# Forms that are not combined with others.
ALONE = (
    Form("in the other order", "with its bytes in the other order", lambda it: it[::-1]),
    Form("without its last byte", "without its last byte", lambda it: it[:-1]),
    Form("without its hex", "as the bytes that it is the hex of", of_hex),
    Form("out of UTF-16", "out of its UTF-16", of_wide),
    Form("without its size", "without the size in front", of_sized),
)


def padded(size: int) -> Form:
    words = f"padded with blanks to {size}"
    return Form(words, f"{words} bytes", lambda it: it.ljust(size) if b" " not in it else b"")


def spaced(count: int) -> Form:
    words = f"with {count} spaces"
    return Form(words, f"{words} after it", lambda it: it + b" " * count if b" " not in it else b"")


# Forms with blanks after the value, as in a field of fixed size, which are not combined either. An
# authorization value has at most 32 bytes.
PADDED = (
    *map(padded, (8, 16, 20, 32)),
    *map(spaced, range(2, 32)),
    Form("without its blanks", "without the blanks after it", lambda it: it.rstrip(b" ")),
)


def of_digest(turn: Callable[[bytes], bytes]) -> Callable[[bytes], bytes]:
    """Returns a form that applies only to Names that contain a digest, and not to Names that are
    handles.
    """
    return lambda name: turn(name) if len(name) > 4 else b""


# Forms of the Names in cpHash.
NAME_FORMS = (
    Form("Name with its size", "with its two bytes of size in front", sized),
    Form(
        "Name without nameAlg", "without the two bytes of its nameAlg", of_digest(lambda it: it[2:])
    ),
    Form("Name cut", "cut to 20 bytes", of_digest(lambda it: it[:20])),
    Form("Name as hex", "as the text of its hex", of_digest(lambda it: it.hex().encode())),
)


@dataclass(frozen=True)
class Formed:
    """A value in one form, or in a combination of two forms."""

    forms: tuple[Form, ...]
    value: bytes

    @property
    def is_single(self) -> bool:
        return len(self.forms) == 1


def forms_of(value: bytes) -> Iterator[Formed]:
    """Yields the value in each single form, and then in those combinations of two forms that are
    tried. In a combination, the form that is applied first comes first.
    """
    seen = {value, b""}

    def fresh(before: tuple[Form, ...], form: Form, turned: bytes) -> Iterator[Formed]:
        if turned not in seen:
            seen.add(turned)
            yield Formed((*before, form), turned)

    inner = [it for form in NESTED for it in fresh((), form, form.turn(value))]
    yield from inner
    for form in (*CUTS, *ALONE, *PADDED):
        yield from fresh((), form, form.turn(value))
    for it in inner:
        for form in (*NESTED, *CUTS):
            yield from fresh(it.forms, form, form.turn(it.value))


# The largest length of a text in which typing errors are tried.
MOST_TYPED = 24
CHARACTERS = [bytes([it]) for it in range(0x20, 0x7F)]


def mistypings(value: bytes) -> Iterator[bytes]:
    """Yields texts with one character missing, added or wrong, or with two characters swapped."""
    yield from (it for it in dict.fromkeys(typed(value)) if it != value)


def typed(value: bytes) -> Iterator[bytes]:
    is_text = all(0x20 <= it < 0x7F for it in value)
    if not is_text or not 0 < len(value) <= MOST_TYPED:
        return
    places = range(len(value))
    yield from (value[:at] + value[at + 1 :] for at in places)
    yield from (value[:at] + value[at : at + 2][::-1] + value[at + 2 :] for at in places[:-1])
    yield from (value[:at] + it + value[at + 1 :] for at in places for it in CHARACTERS)
    yield from (value[:at] + it + value[at:] for at in (*places, len(value)) for it in CHARACTERS)
