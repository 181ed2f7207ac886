"""Written assertions, in the terms of tpm_policy_meaning (Expression, PolicyDigest): their words in
docs/EXPLAIN.md, the texts that they add to the digest, and the parameters of their commands.
"""

from __future__ import annotations

from dataclasses import dataclass
from typing import Any, Callable, Sequence

from tpmsim.faults import TpmsimError
from tpmsim.policies.pcr_values import PcrValues, read_values
from tpmsim.standard import CC, digest, DIGEST_BYTES, digest_bytes, Fields, frames, HIERARCHIES
from tpmsim.standard import Kind, name_of, NAMED, number, NUMBERED, PCRS, SHA1, SHA256, sized
from tpmsim.standard import values
from tpmsim.standard.given import OPERATIONS, write_in_order
from tpmsim.standard.lines import bytes_of, HANDLE_NAMES, handle_word, hex_word, number_up_to, WORDS
from tpmsim.standard.lines import Wrong

LOCALITIES = {b"0", b"1", b"2", b"3", b"4"}

# The first bytes of the Name of an object or an index, and the size of such a Name.
HASHED_NAMES = {number(it, 2): 2 + digest_bytes(it) for it in (SHA1, SHA256)}


@dataclass(frozen=True)
class Update:
    """The bytes that an assertion adds to the digest: the command code, the entity that the
    assertion is about, the policyRef, if any, and the text that is hashed separately, if any. It
    also says whether the assertion discards the previous digest.
    """

    code: CC
    about: bytes = b""
    reference: bytes | None = None
    apart: tuple[bytes, ...] = ()
    forgets: bool = False


class Unsaid(TpmsimError):
    """The reason why words are not an assertion."""


def shown(word: bytes) -> str:
    """Returns a word in quotes, with `?` for each character that is not printable ASCII."""
    plain = "".join(chr(it) if 0x20 < it < 0x7F else "?" for it in word)
    return f'"{plain}"'


# Parsers of words. A word that has no value raises Wrong.


def held_to(holds: bool) -> None:
    """Raises Wrong unless the condition holds."""
    if not holds:
        raise Wrong


def read_index_name(word: bytes) -> bytes:
    """Reads the Name of an object or an index."""
    name = bytes_of(word)
    held_to(HASHED_NAMES.get(name[:2]) == len(name))
    return name


def read_name(word: bytes) -> bytes:
    """Parses the Name of an entity for TPM2_PolicySecret. The Name of a hierarchy or a PCR is its
    handle.
    """
    name = name_of(HANDLE_NAMES[word]) if word in HANDLE_NAMES else bytes_of(word)
    is_handle = name in [name_of(it) for it in (*HIERARCHIES, *PCRS)]
    return name if is_handle else read_index_name(word)


def name_word(name: bytes) -> str:
    """Returns the word of a hierarchy's Name, such as OWNER; other Names in hex."""
    hierarchies = {name_of(it): handle_word(it) for it in HIERARCHIES}
    return hierarchies.get(name) or hex_word(name)


def read_buffer(word: bytes) -> bytes:
    """Reads a buffer that is no longer than a digest."""
    data = bytes_of(word)
    held_to(len(data) <= DIGEST_BYTES)
    return data


def read_digest(word: bytes) -> bytes:
    """Reads a digest."""
    found = bytes_of(word)
    held_to(len(found) in (digest_bytes(SHA1), digest_bytes(SHA256)))
    return found


def read_code(word: bytes) -> int:
    """Reads a command's name or its number."""
    name = word.decode("latin-1")
    return int(CC[name]) if name in NAMED else number_up_to(2**32 - 1, word)


def code_word(code: int) -> str:
    """Returns the name of a command, or its number in hex if the device does not support it."""
    return CC(code).name if code in NUMBERED else hex(code)


def read_localities(word: bytes) -> int:
    """Parses localities, written as their numbers and not as the set of bits in a `do` line."""
    allowed = set(word.split(b","))
    held_to(allowed <= LOCALITIES)
    return sum(1 << int(it) for it in allowed)


def localities_word(bits: int) -> str:
    """Returns the numbers of the localities, separated by commas."""
    return ",".join(str(it) for it in range(8) if bits >> it & 1)


def read_operation(word: bytes) -> int:
    """Parses the operation of TPM2_PolicyNV."""
    name = word.decode("latin-1")
    held_to(name in OPERATIONS)
    return OPERATIONS.index(name)


@dataclass(frozen=True)
class Word:
    """A word after an assertion's name: its meaning, how it is parsed, and how it is written."""

    name: str
    read: Callable[[bytes], Any]
    written: Callable[[Any], str] = hex_word


PCR_WORDS = WORDS[Kind.SELECTION]
SELECTION = Word(
    "a selection of PCRs", PCR_WORDS.spelled, lambda text: PCR_WORDS.word(Fields(text))
)
DIGEST = Word("a digest of 20 or 32 bytes in hex", read_digest)
CODE = Word("a command", read_code, code_word)
LOCALITY_LIST = Word("a list of localities from 0 to 4", read_localities, localities_word)
PCR_VALUES = Word("PCRs with their values", read_values, lambda it: str(it.word))
IS_WRITTEN = Word("0 or 1", lambda word: number_up_to(1, word), str)
NAME = Word("a Name", read_name, name_word)
INDEX_NAME = Word("the Name of an NV index", read_index_name)
REFERENCE = Word("a policyRef of at most 32 bytes in hex", read_buffer)
OPERAND = Word("an operand of at most 32 bytes in hex", read_buffer)
OFFSET = Word("an offset up to 65535", lambda word: number_up_to(2**16 - 1, word), str)
OPERATION = Word("a comparison", read_operation, lambda it: str(OPERATIONS[it]))

# The words after the name of each assertion, by the assertion's command.
FORMS: dict[CC, tuple[Word, ...]] = {
    CC.PolicyPCR: (SELECTION, DIGEST),
    CC.PolicyAuthValue: (),
    CC.PolicyPassword: (),
    CC.PolicyCommandCode: (CODE,),
    CC.PolicyLocality: (LOCALITY_LIST,),
    CC.PolicyCpHash: (DIGEST,),
    CC.PolicyNvWritten: (IS_WRITTEN,),
    CC.PolicySecret: (NAME, REFERENCE),
    CC.PolicyNV: (INDEX_NAME, OPERAND, OFFSET, OPERATION),
}

# PCR values, which may replace a selection and a digest.
BY_VALUES = {CC.PolicyPCR: (PCR_VALUES,)}


def form_of(code: CC, count: int) -> tuple[Word, ...]:
    """Returns the words after an assertion's name, if there are `count` of them."""
    return BY_VALUES[code] if count == 1 and code in BY_VALUES else FORMS.get(code, ())


@dataclass(frozen=True)
class Said:
    """An assertion, with a value for each of its words. When the session is used, it requires:

    - PolicyPCR: the PCRs of the selection, given as its encoding, have this digest; or the PCRs
      have these values.
    - PolicyAuthValue, PolicyPassword: the authorization value is in the HMAC's key, or is the
      password.
    - PolicyCommandCode, PolicyCpHash, PolicyLocality (bit n for locality n): the command matches.
    - PolicyNvWritten: the NV index is written, or is not written.
    - PolicySecret: the entity with the Name was authorized for the policyRef.
    - PolicyNV: the operation holds for the data of the index with the Name, from the offset on,
      and the operand.

    PolicyOR, which is not written in this form, contains the digests of its branches.
    """

    code: CC
    values: tuple[Any, ...] = ()

    @property
    def words(self) -> str:
        """The assertion in words."""
        pairs = zip(form_of(self.code, len(self.values)), self.values)
        return " ".join([str(self.code.name), *(word.written(it) for word, it in pairs)])

    def by(self, algorithm: int) -> Said:
        """Returns the assertion for a session with this hash algorithm, with PCR values replaced by
        their digest.
        """
        match self.code, *self.values:
            case CC.PolicyPCR, PcrValues() as found:
                return Said(self.code, (found.selection, found.digest(algorithm)))
        return self

    def update(self, algorithm: int) -> Update:
        """Returns what the assertion adds to the digest."""
        match self.code, *self.by(algorithm).values:
            case CC.PolicyOR, *digests:
                return Update(self.code, b"".join(digests), forgets=True)
            case CC.PolicyPassword, *_:
                return Update(CC.PolicyAuthValue)
            case CC.PolicyPCR, selection, values_digest:
                return Update(self.code, selection + values_digest)
            case CC.PolicySecret, name, reference:
                return Update(self.code, name, reference)
            case CC.PolicyNV, name, operand, offset, operation:
                compared = operand + number(offset, 2) + number(operation, 2)
                about = digest(algorithm, compared) + name
                return Update(self.code, about, apart=(compared,))
            case CC.PolicyCpHash, cp_hash:
                return Update(self.code, cp_hash)
        return Update(self.code, self.parameters)

    @property
    def parameters(self) -> bytes:
        """Returns the parameters of the assertion's command; PCR values must have been replaced."""
        match self.code, *self.values:
            case CC.PolicyPCR, selection, values_digest:
                return sized(values_digest) + bytes(selection)
            case CC.PolicySecret, _, reference:
                return write_in_order(self.code, b"", b"", reference, 0)
            case CC.PolicyNV, _, *compared:
                return write_in_order(self.code, *compared)
        return write_in_order(self.code, *self.values)

    @property
    def name(self) -> bytes:
        """Returns the Name of the entity or index that the assertion is about, if there is one."""
        is_about = self.code in (CC.PolicySecret, CC.PolicyNV)
        return bytes(self.values[0]) if is_about else b""


def said_of(
    code: CC,
    parameters: bytes,
    names: Sequence[bytes],
    pcr_digest: Callable[[list[values.Bank], bytes], bytes],
) -> Said:
    """Returns the assertion that a command makes, given the Names of its handles. `pcr_digest`
    returns the digest for TPM2_PolicyPCR.
    """
    given = values.read_all(code.parameters, parameters)
    match code:
        case CC.PolicyPCR:
            selected = given["pcrs"]
            found = pcr_digest(selected, given["pcrDigest"])
            return Said(code, (frames.selection(*selected), found))
        case CC.PolicyOR:
            return Said(code, tuple(given["pHashList"]))
        case CC.PolicySecret:
            return Said(code, (names[0], given["policyRef"]))
        case CC.PolicyNV:
            return Said(code, (names[1], *given.values()))
    return Said(code, tuple(given.values()))


def read_word(word: Word, given: bytes) -> Any:
    """Parses a word of an assertion; raises Unsaid if it is not a word of this kind."""
    try:
        return word.read(given)
    except Wrong:
        raise Unsaid(f"{shown(given)} is not {word.name}") from None


def read_assertion(text: bytes) -> Said:
    """Parses the line of an assertion; raises Unsaid for other lines."""
    name, *given = text.split(b" ")
    code = CC.__members__.get(name.decode("latin-1"))
    if code not in FORMS:
        raise Unsaid(f"{shown(name)} is not an assertion")
    has_values = code in BY_VALUES and b"=" in text
    words = BY_VALUES[code] if has_values else FORMS[code]
    if len(given) != len(words):
        wanted = ", then ".join(it.name for it in FORMS[code]) or "nothing"
        wanted += "".join(f", or {it.name}" for it in BY_VALUES.get(code, ()))
        raise Unsaid(f"{code.name} must be followed by {wanted}")
    said = Said(code, tuple(map(read_word, words, given)))
    if said.words.encode("ascii") != text:
        raise Unsaid(f'this is written "{said.words}"')
    return said
