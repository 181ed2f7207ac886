"""Commands in words, and traces of events (docs/SCRIPTS.md).

A line is of type bytes, since a wrong line may contain any bytes.
"""

from __future__ import annotations

import re
from dataclasses import dataclass
from functools import cached_property
from typing import Any, Callable, Iterable, TYPE_CHECKING, TypeVar

from tpmsim.faults import TpmsimError
from tpmsim.standard import frames
from tpmsim.standard.commands import ALL_NUMBERED, CC, Kind, Profile
from tpmsim.standard.frames import AES, ALG_NULL, CONTINUE_SESSION, Entry, RS_PW, SESSIONS, SHA1
from tpmsim.standard.frames import SHA256, XOR
from tpmsim.standard.handle_kinds import HANDLES, PCRS
from tpmsim.standard.reading import Fields, Short
from tpmsim.standard.sessions import digest_bytes
from tpmsim.standard.values import Bank, Cipher, Digest, VALUES, Values

if TYPE_CHECKING:
    from tpmsim.model.machine import Outcome

T = TypeVar("T")

BAD_NAME, BAD_FIELD, MISSING = "BadName", "BadField", "Missing"
RANGE, TOO_LONG = "Range", "TooLong"


class Fault(TpmsimError):
    """Why bytes are not a line: the fault's name, and for some faults the column of the token."""

    def __init__(self, name: str, column: int | None = None) -> None:
        super().__init__(name if column is None else f"{name} {column}")


class Wrong(TpmsimError):
    """A wrong token; its only argument is BAD_FIELD or RANGE."""


class NoWords(TpmsimError):
    """No token encodes these bytes."""


NOTHING, JOIN = b"-", b"+"
HEX = re.compile(rb"(?:[0-9A-Fa-f]{2})+")
HANDLE = re.compile(rb"[0-9A-Fa-f]{8}")
NUMBER = re.compile(rb"0x([0-9A-Fa-f]+)|([0-9]+)")

# The largest number of an algorithm.
MOST_ALGORITHM = 0xFFFF

# A number with more digits than this, without leading zeros, is too large for every field.
MOST_DIGITS = len(str(2**64))

HANDLE_NAMES = {
    b"OWNER": frames.RH_OWNER,
    b"NULL": frames.RH_NULL,
    b"LOCKOUT": frames.RH_LOCKOUT,
    b"ENDORSEMENT": frames.RH_ENDORSEMENT,
    b"PLATFORM": frames.RH_PLATFORM,
}


def of_form(form: re.Pattern[bytes], token: bytes) -> re.Match[bytes]:
    """Matches a form against a whole token; raises Wrong if it does not match."""
    found = form.fullmatch(token)
    if not found:
        raise Wrong(BAD_FIELD)
    return found


def number_up_to(most: int, token: bytes) -> int:
    """Parses a number in decimal or in hex; raises Wrong if it is larger than `most`."""
    in_hex, in_decimal = of_form(NUMBER, token).groups()
    digits = (in_hex or in_decimal).lstrip(b"0") or b"0"
    if len(digits) > MOST_DIGITS:
        raise Wrong(RANGE)
    value = int(digits, 16 if in_hex else 10)
    if value > most:
        raise Wrong(RANGE)
    return value


def bytes_of(token: bytes) -> bytes:
    """Parses hex; `-` stands for no bytes."""
    if token == NOTHING:
        return b""
    return bytes.fromhex(of_form(HEX, token)[0].decode("ascii"))


def handle_of(token: bytes) -> int:
    """Reads a handle: eight digits in hex, or a name such as OWNER."""
    if token in HANDLE_NAMES:
        return HANDLE_NAMES[token]
    return int(of_form(HANDLE, token)[0], 16)


def hex_word(data: bytes) -> str:
    """Returns bytes in hex, or `-` for no bytes."""
    return data.hex() or NOTHING.decode("ascii")


def handle_word(handle: int) -> str:
    """Returns the word of a handle."""
    return word_in(HANDLE_NAMES, handle, f"{handle:08x}")


def value_in(words: dict[bytes, T], token: bytes) -> T:
    """Returns the value of a token; raises Wrong if it is not in the table."""
    if token not in words:
        raise Wrong(BAD_FIELD)
    return words[token]


def word_in(words: dict[bytes, Any], value: bytes | int, other: str | None = None) -> str:
    """Returns the word for a value, or `other` if no word has this value."""
    for word, meant in words.items():
        if meant == value:
            return word.decode("ascii")
    if other is None:
        raise NoWords
    return other


HASHES = {b"sha1": SHA1, b"sha256": SHA256}
HASHES_OR_NULL = {**HASHES, b"null": ALG_NULL}
CIPHERS = {
    b"null": Cipher(),
    b"aes": Cipher(AES),
    b"xor-sha1": Cipher(XOR, SHA1),
    b"xor-sha256": Cipher(XOR, SHA256),
}


@dataclass(frozen=True)
class Words:
    """The words of a kind of parameter: its name in docs/table, and conversions between tokens and
    values.
    """

    kind: Kind
    name: str
    parsed: Callable[[bytes], Any]
    shown: Callable[[Any], str]

    @cached_property
    def values(self) -> Values:
        """The conversions between values and bytes."""
        return VALUES[self.kind]

    def spelled(self, token: bytes) -> bytes:
        """Returns the bytes that a token encodes; raises Wrong if the token is not of this kind."""
        return self.values.write(self.parsed(token))

    def word(self, fields: Fields) -> str:
        """Returns the token for the next value of the fields; raises NoWords if no token encodes
        that value.
        """
        try:
            return self.shown(self.values.read(fields))
        except KeyError:
            raise NoWords from None


def integer(kind: Kind, size: int, shown: str = "{}") -> Words:
    """Returns the words for integers of this size, in bytes."""
    most = 2 ** (8 * size) - 1
    return Words(kind, f"u{8 * size}", lambda token: number_up_to(most, token), shown.format)


def buffer_of(token: bytes) -> bytes:
    """Returns a buffer, truncated to 65,535 bytes. A longer buffer would make the command too long
    anyway.
    """
    return bytes_of(token)[:0xFFFF]


def listed(
    kind: Kind, parsed: Callable[[bytes], Any], shown: Callable[..., str], is_empty: bool = True
) -> Words:
    """Returns the words of lists. Their values are separated by JOIN; an empty list, if allowed, is
    NOTHING.
    """

    def all_parsed(token: bytes) -> list[Any]:
        return [] if is_empty and token == NOTHING else [parsed(it) for it in token.split(JOIN)]

    def all_shown(values: Iterable[Any]) -> str:
        return JOIN.decode("ascii").join(map(shown, values)) or NOTHING.decode("ascii")

    return Words(kind, kind.value, all_parsed, all_shown)


def hash_and_rest(piece: bytes) -> tuple[int, bytes]:
    """Splits a piece at its colon; returns the hash algorithm and the rest."""
    name, _, rest = piece.partition(b":")
    return value_in(HASHES, name), rest


def bank_of(piece: bytes) -> Bank:
    """Reads a bank of a selection."""
    algorithm, rest = hash_and_rest(piece)
    return Bank(algorithm, tuple(number_up_to(PCRS[-1], it) for it in rest.split(b",")))


def digest_of(piece: bytes) -> Digest:
    """Reads a digest with its hash algorithm."""
    algorithm, rest = hash_and_rest(piece)
    digest = bytes_of(rest)
    if len(digest) != digest_bytes(algorithm):
        raise Wrong(BAD_FIELD)
    return Digest(algorithm, digest)


def algorithm_of(piece: bytes) -> int:
    """Reads the number of an algorithm."""
    return number_up_to(MOST_ALGORITHM, piece)


def one_of(kind: Kind, words: dict[bytes, Any]) -> Words:
    """Returns the words of a kind that has only these values."""
    return Words(
        kind, kind.value, lambda token: value_in(words, token), lambda it: word_in(words, it)
    )


# The words of each kind. Sets of bits, codes and handles are printed in hex. A structure that
# occurs only in responses has no words.
WORDS: dict[Kind, Words] = {
    it.kind: it
    for it in (
        integer(Kind.U8, 1),
        integer(Kind.U16, 2),
        integer(Kind.U32, 4),
        integer(Kind.BITS8, 1, "{:#x}"),
        integer(Kind.BITS64, 8, "{:#x}"),
        integer(Kind.CODE, 4, "{:#x}"),
        integer(Kind.HANDLE, 4, "{:#010x}"),
        Words(Kind.BUFFER, "Buffer", buffer_of, hex_word),
        listed(Kind.BUFFERS, buffer_of, hex_word, is_empty=False),
        listed(
            *(Kind.SELECTION, bank_of),
            lambda it: f"{word_in(HASHES, it.algorithm)}:{','.join(map(str, it.pcrs))}",
        ),
        listed(
            *(Kind.DIGESTS, digest_of),
            lambda it: f"{word_in(HASHES, it.algorithm)}:{it.digest.hex()}",
        ),
        one_of(Kind.CIPHER, CIPHERS),
        one_of(Kind.HASH, HASHES_OR_NULL),
        Words(Kind.HIERARCHY, "Hierarchy", handle_of, handle_word),
        listed(Kind.ALGORITHMS, algorithm_of, "{:#x}".format),
        Words(Kind.BYTES, "Bytes", bytes_of, hex_word),
    )
}


def form_of(code: CC) -> str:
    """Returns the form of a command's line, as in the command's section of docs/table."""
    marks = ["@" * it.is_authorized + HANDLES[it.kind].mark for it in code.handles]
    return " ".join([code.name, *marks, *(it.name for it in words_of_parameters(code))])


def words_of_parameters(code: CC) -> list[Words]:
    """Returns the words of each parameter's kind."""
    return [WORDS[it.kind] for it in code.parameters]


def parameter_words(code: CC, fields: Fields) -> list[str]:
    """Returns a token for each parameter of a command."""
    return [it.word(fields) for it in words_of_parameters(code)]


PASSWORD_PREFIX, SESSION_PREFIX = b"pw:", b"s:"


def is_entry(token: bytes) -> bool:
    """Returns whether a token begins like an entry."""
    return token.startswith((PASSWORD_PREFIX, SESSION_PREFIX))


def entry_of(token: bytes) -> Entry:
    """Parses an entry: a password, or the fields of a session's entry."""
    if token.startswith(PASSWORD_PREFIX):
        password = buffer_of(token.removeprefix(PASSWORD_PREFIX))
        return Entry(RS_PW, b"", CONTINUE_SESSION, password)
    parts = token.removeprefix(SESSION_PREFIX).split(b":")
    if len(parts) != 4:
        raise Wrong(BAD_FIELD)
    handle, nonce, attributes, hmac = parts
    if len(attributes) != 2:
        raise Wrong(BAD_FIELD)
    head = handle_of(handle), buffer_of(nonce)
    return Entry(*head, bytes_of(attributes)[0], buffer_of(hmac))


def entry_word(entry: Entry) -> str:
    """Returns the word for an entry: a password, if it has the format of one, or the fields of a
    session's entry.
    """
    hmac = hex_word(entry.hmac)
    if (entry.handle, entry.nonce, entry.attributes) == (RS_PW, b"", CONTINUE_SESSION):
        return f"pw:{hmac}"
    handle = handle_word(entry.handle)
    return f"s:{handle}:{hex_word(entry.nonce)}:{entry.attributes:02x}:{hmac}"


class Tokens:
    """The tokens of a line, parsed in order. Parsing ends at the first fault."""

    def __init__(self, line: bytes) -> None:
        self.left, self.column = line.split(b" "), 1

    def take(self, spelled: Callable[[bytes], T]) -> T:
        """Returns the value of the next token."""
        if not self.left:
            raise Fault(MISSING)
        try:
            value = spelled(self.left[0])
        except Wrong as wrong:
            (name,) = wrong.args
            raise Fault(name, self.column) from None
        self.column += len(self.left.pop(0)) + 1
        return value

    def end(self) -> None:
        """Raises Fault if there are more tokens."""
        if self.left:
            raise Fault(BAD_FIELD, self.column)


def code_of(token: bytes, profile: Profile) -> CC:
    """Reads the name of a command of a profile."""
    name = token.decode("ascii", "replace")
    if name not in CC.__members__ or CC[name] not in profile.commands:
        raise Fault(BAD_NAME)
    return CC[name]


def assemble(line: bytes, profile: Profile = Profile.SYMMETRIC) -> bytes:
    """Returns the buffer that a line encodes; raises Fault if it is not a line with a command of
    the profile.
    """
    tokens = Tokens(line)
    code = tokens.take(lambda token: code_of(token, profile))
    handles = [tokens.take(handle_of) for _ in code.handles]
    entries: list[Entry] = []
    while len(entries) < frames.MOST_ENTRIES and any(map(is_entry, tokens.left[:1])):
        entries.append(tokens.take(entry_of))
    parameters = b"".join(tokens.take(it.spelled) for it in words_of_parameters(code))
    tokens.end()
    buffer = frames.buffer_of(code, handles, entries, parameters)
    if len(buffer) > frames.COMMAND_BYTES:
        raise Fault(TOO_LONG)
    return buffer


def line_of(buffer: bytes, profile: Profile = Profile.SYMMETRIC) -> str | None:
    """Returns the line that encodes a command of a profile, or None if no line does."""
    try:
        line = " ".join(words_of(Fields(buffer), profile))
        return line if assemble(line.encode("ascii"), profile) == buffer else None
    except (Short, NoWords, Fault):
        return None


def words_of(fields: Fields, profile: Profile) -> list[str]:
    """Returns the tokens of a command of a profile; raises NoWords if no tokens encode it."""
    tag = fields.number(2)
    fields.take(4)
    code = profile.commands.get(fields.number(4))
    if code is None:
        raise NoWords
    handles = [handle_word(fields.number(4)) for _ in code.handles]
    entries = []
    if tag == SESSIONS:
        area = fields.take(fields.number(4))
        entries = [entry_word(it) for it in frames.entries_of(area)]
    return [code.name, *handles, *entries, *parameter_words(code, fields)]


def traced(outcome: Outcome, locality: int, elapsed: int) -> str:
    """Returns the trace of a command: its name, the locality, the elapsed milliseconds, the check
    that decided the response, and the response code. If a command is refused before its code is
    known, the name is `?`.
    """
    code = ALL_NUMBERED.get(outcome.row.code)
    name = code.name if code else "?"
    return f"{name} L{locality} +{elapsed} {outcome.row.check} {outcome.response[6:10].hex()}"
