"""Splits commands and responses into fields. Every byte belongs to a field, even if the bytes are
malformed.
"""

import contextlib
from contextlib import contextmanager
from dataclasses import dataclass
from typing import Callable, Iterator

from tpmsim.explain import words
from tpmsim.explain.words import algorithm_words, ATTRIBUTES, bit_words, command_words, handle_words
from tpmsim.explain.words import kind_words, OPERATIONS, size_words
from tpmsim.faults import TpmsimError
from tpmsim.standard import ALL_NUMBERED, CC, digest_bytes, frames, HASHES, Kind, nv, objects
from tpmsim.standard import Parameter, RS_PW

# The part of the buffer that a field belongs to.
HEADER, HANDLE, ENTRY, PARAMETER, REST = "header", "handle", "entry", "parameter", "rest"


class Cut(TpmsimError):
    """The bytes end within a field."""


@dataclass
class Field:
    """A field of a command or response. Its first `front` bytes are a size, and it is inside
    `depth` structures. If it is a structure (`is_group`), its fields follow it.
    """

    name: str
    at: int
    size: int
    front: int
    meaning: str
    sort: str
    depth: int
    is_group: bool = False


class Walk:
    """Reads fields from bytes, in order. Bytes that cannot be parsed are a field of their own."""

    def __init__(self, data: bytes) -> None:
        self.data, self.at, self.depth, self.sort = data, 0, 0, HEADER
        self.fields: list[Field] = []
        self.end = len(data)

    def take(self, size: int, name: str, meaning: Callable[[bytes], str], front: int = 0) -> bytes:
        """Reads the next bytes, the first `front` of which are a size; raises Cut if there are too
        few.
        """
        left = self.end - self.at
        found = self.data[self.at : self.at + min(size, left)]
        said = meaning(found[front:]) if size <= left else f"cut: {left} of {size} bytes"
        place = self.at, len(found), min(front, left)
        self.fields.append(Field(name, *place, said, self.sort, self.depth))
        self.at += len(found)
        if size > left:
            raise Cut
        return found[front:]

    def number(self, size: int, name: str, meaning: Callable[[int], str] = str) -> int:
        data = self.take(size, name, lambda it: meaning(int.from_bytes(it, "big")))
        return int.from_bytes(data, "big")

    def peek(self) -> int:
        """Returns the two-byte size field of the next buffer without consuming it."""
        return int.from_bytes(self.data[self.at : min(self.at + 2, self.end)], "big")

    def buffer(self, name: str, meaning: Callable[[bytes], str] | None = None) -> bytes:
        return self.take(2 + self.peek(), name, meaning or said_bytes, 2)

    def elements(self, name: str, word: str) -> Iterator[int]:
        """Yields the numbers of a list's elements, starting with 1. Fields that are read for an
        element are inside the list.
        """
        for at in range(self.number(4, name, lambda it: words.plural(it, word))):
            self.depth += 1
            yield at + 1
            self.depth -= 1

    @contextmanager
    def group(self, name: str, size: int | None = None, front: int = 0) -> Iterator[None]:
        """Opens a structure. It has the passed size, or else the size of the fields that are read
        in it. Raises Cut if the bytes end within the structure's size field.
        """
        if self.end - self.at < front:
            self.take(front, name, lambda it: "")
        field = Field(name, self.at, 0, front, "", self.sort, self.depth, True)
        self.fields.append(field)
        end, self.at = self.end, self.at + front
        if size is not None:
            self.end = min(self.end, self.at + size)
        self.depth += 1
        try:
            yield
            if size is not None:
                self.rest("left over")
        finally:
            field.size = self.at - field.at
            self.end, self.depth = end, self.depth - 1

    def rest(self, name: str) -> None:
        if self.at < self.end:
            self.take(self.end - self.at, name, lambda it: words.size_words(len(it)))

    def algorithm(self, name: str) -> int:
        return self.number(2, name, algorithm_words)

    def handle(self, name: str) -> int:
        return self.number(4, name, said_handle)


def said_handle(handle: int) -> str:
    said, kind = handle_words(handle), kind_words(handle)
    return kind if said in (kind, f"{handle:08x}", "the password") else said


def said_bytes(data: bytes) -> str:
    return f'"{data.decode("ascii")}"' if words.printable(data) else words.size_words(len(data))


STARTS = {0: "CLEAR", 1: "STATE"}
TICKETS = {
    frames.ST_CREATION: "of a creation",
    frames.ST_AUTH_SECRET: "of an assertion",
    frames.ST_HASHCHECK: "of a digest",
}

# A function that reads the next parameter. The name of the parameter is passed to the function.
Reader = Callable[[Walk, str], object]


def number(size: int, meaning: Callable[[int], str] = str) -> Reader:
    return lambda walk, name: walk.number(size, name, meaning)


def named(size: int, names: dict[int, str], other: str) -> Reader:
    """Returns a reader of a number that has a name in `names`. The meaning of any other number is
    `other`.
    """
    return number(size, lambda it: names.get(it, other))


def nv_attribute_words(value: int) -> str:
    kind = value >> nv.TYPE_SHIFT & nv.TYPE_MASK
    types = {int(it): it.name.lower() for it in nv.Type}
    flags = words.flag_words(value & ~(nv.TYPE_MASK << nv.TYPE_SHIFT), nv.Attribute)
    return f"type {types.get(kind, str(kind))}; {flags}"


def buffers(walk: Walk, name: str) -> None:
    for at in walk.elements(name, "buffer"):
        walk.buffer(f"{name} {at}")


def selection(walk: Walk, name: str) -> None:
    for _ in walk.elements(name, "bank"):
        walk.algorithm("hash")
        size = walk.number(1, "sizeofSelect")
        walk.take(size, "pcrSelect", pcr_words)


def pcr_words(bits: bytes) -> str:
    value = int.from_bytes(bits, "little")
    found = [str(it) for it in range(value.bit_length()) if value >> it & 1]
    return "PCR " + ", ".join(found) if found else "no PCR"


def digests(walk: Walk, name: str) -> None:
    for _ in walk.elements(name, "digest"):
        algorithm = walk.algorithm("hashAlg")
        if algorithm in HASHES:
            walk.take(digest_bytes(algorithm), "digest", lambda it: "")


def cipher(walk: Walk, name: str) -> None:
    algorithm = walk.algorithm(name)
    walk.depth += 1
    if algorithm == frames.AES:
        walk.number(2, "keyBits")
        walk.algorithm("mode")
    elif algorithm == frames.XOR:
        walk.algorithm("hashAlg")
    walk.depth -= 1


def algorithms(walk: Walk, name: str) -> None:
    for at in walk.elements(name, "algorithm"):
        walk.algorithm(f"{name} {at}")


def rest(walk: Walk, name: str) -> None:
    walk.take(walk.end - walk.at, name, said_bytes)


def sensitive_create(walk: Walk, name: str) -> None:
    with walk.group(name, walk.peek(), 2):
        walk.buffer("userAuth")
        walk.buffer("data")


def public_parameters(walk: Walk, name: str) -> None:
    with walk.group(name):
        of_kind(walk, walk.algorithm("type"))


def of_kind(walk: Walk, kind: int) -> None:
    """Reads the parameters of the public area of an object of this kind."""
    if kind == frames.SYMCIPHER:
        cipher(walk, "symmetric")
    elif walk.algorithm("scheme") == frames.ALG_HMAC:
        walk.algorithm("hashAlg")


def public(walk: Walk, name: str) -> None:
    with walk.group(name, walk.peek(), 2):
        kind = walk.algorithm("type")
        walk.algorithm("nameAlg")
        walk.number(4, "objectAttributes", lambda it: words.flag_words(it, objects.Attribute))
        walk.buffer("authPolicy")
        of_kind(walk, kind)
        walk.buffer("unique")


def nv_public(walk: Walk, name: str) -> None:
    with walk.group(name, walk.peek(), 2):
        walk.handle("nvIndex")
        walk.algorithm("nameAlg")
        walk.number(4, "attributes", nv_attribute_words)
        walk.buffer("authPolicy")
        walk.number(2, "dataSize", size_words)


def private(walk: Walk, name: str) -> None:
    with walk.group(name, walk.peek(), 2):
        walk.buffer("integrity", lambda it: "an HMAC by the parent")
        walk.buffer("iv")
        walk.rest("encrypted")


def creation_data(walk: Walk, name: str) -> None:
    with walk.group(name, walk.peek(), 2):
        selection(walk, "pcrSelect")
        walk.buffer("pcrDigest")
        walk.number(1, "locality", words.localities_words)
        walk.algorithm("parentNameAlg")
        walk.buffer("parentName")
        walk.buffer("parentQualifiedName")
        walk.buffer("outsideInfo")


def ticket(walk: Walk, name: str) -> None:
    with walk.group(name):
        walk.number(2, "tag", lambda it: TICKETS.get(it, "of another kind"))
        walk.handle("hierarchy")
        walk.buffer("digest")


def time(walk: Walk, name: str) -> None:
    with walk.group(name):
        walk.number(8, "time", words.seconds_words)
        walk.number(8, "clock", words.seconds_words)
        walk.number(4, "resetCount")
        walk.number(4, "restartCount")
        walk.number(1, "safe")


def capability(walk: Walk, name: str) -> None:
    with walk.group(name):
        walk.number(4, "capability", hex)
        walk.rest("elements")


OF_KIND: dict[Kind, Reader] = {
    Kind.U8: number(1),
    Kind.U16: number(2),
    Kind.U32: number(4),
    Kind.BITS8: number(1, hex),
    Kind.BITS64: number(8, hex),
    Kind.CODE: number(4, hex),
    Kind.HANDLE: Walk.handle,
    Kind.BUFFER: Walk.buffer,
    Kind.BUFFERS: buffers,
    Kind.SELECTION: selection,
    Kind.DIGESTS: digests,
    Kind.CIPHER: cipher,
    Kind.HASH: Walk.algorithm,
    Kind.HIERARCHY: Walk.handle,
    Kind.ALGORITHMS: algorithms,
    Kind.BYTES: rest,
    Kind.TICKET: ticket,
    Kind.TIME: time,
    Kind.CAPABILITY: capability,
}

# Readers for parameters whose name says more than their type.
NAMED: dict[str, Reader] = {
    "startupType": named(2, STARTS, "not a type of startup"),
    "shutdownType": named(2, STARTS, "not a type of shutdown"),
    "sessionType": named(1, words.SESSIONS, "not a type of session"),
    "operation": named(2, dict(enumerate(OPERATIONS)), "no operation"),
    "code": number(4, command_words),
    "locality": number(1, lambda it: "localities " + words.localities_words(it)),
    "inSensitive": sensitive_create,
    **dict.fromkeys(("inPublic", "outPublic"), public),
    **dict.fromkeys(("publicInfo", "nvPublic"), nv_public),
    **dict.fromkeys(("inPrivate", "outPrivate"), private),
    "creationData": creation_data,
    "parameters": public_parameters,
    **dict.fromkeys(("newRecoveryTime", "lockoutRecovery"), number(4, lambda it: f"{it:,} s")),
}


TAGS = {
    frames.NO_SESSIONS: "no sessions",
    frames.SESSIONS: "sessions",
    frames.BAD_TAG_ANSWER: "of an unknown tag",
}


def fields_of_command(buffer: bytes, plain: bytes | None = None) -> list[Field]:
    return fields_of(buffer, lambda walk: command(walk, plain))


def fields_of_response(number: int, response: bytes, plain: bytes | None = None) -> list[Field]:
    """Returns the fields of the response to the command with this number."""
    return fields_of(response, lambda walk: answer(walk, ALL_NUMBERED.get(number), plain))


def fields_of(data: bytes, read: Callable[[Walk], None]) -> list[Field]:
    walk = Walk(data)
    with contextlib.suppress(Cut):
        read(walk)
    walk.depth, walk.end, walk.sort = 0, len(walk.data), REST
    walk.rest("left over")
    return walk.fields


def header(walk: Walk, of: str, meaning: Callable[[int], str]) -> tuple[int, int]:
    tag = walk.number(2, "tag", lambda it: TAGS.get(it, "no tag of a command"))
    walk.number(4, f"{of}Size", size_words)
    return tag, walk.number(4, f"{of}Code", meaning)


def command(walk: Walk, plain: bytes | None) -> None:
    tag, number = header(walk, "command", command_words)
    code = ALL_NUMBERED.get(number)
    if code is None:
        return
    walk.sort = HANDLE
    for it in code.handles:
        walk.handle(it.name)
    if tag == frames.SESSIONS:
        walk.sort = ENTRY
        size = walk.number(4, "authorizationSize", size_words)
        entries(walk, min(walk.end, walk.at + size), is_command=True)
    parameters(walk, code.parameters, plain)


def entries(walk: Walk, end: int, is_command: bool) -> None:
    place = 0
    while walk.at < end:
        place += 1
        with walk.group(f"entry {place}"):
            walk.end, whole = end, walk.end
            try:
                is_password = is_command and walk.handle("sessionHandle") == RS_PW
                walk.buffer("nonceCaller" if is_command else "nonceTPM")
                walk.number(1, "sessionAttributes", lambda it: bit_words(it, ATTRIBUTES))
                walk.buffer("password" if is_password else "hmac")
            finally:
                walk.end = whole


def parameters(walk: Walk, those: tuple[Parameter, ...], plain: bytes | None) -> None:
    """Reads the parameters; `plain` contains them with the first one decrypted."""
    walk.sort, at = PARAMETER, walk.at
    if plain is not None:
        walk.data = walk.data[:at] + plain + walk.data[at + len(plain) :]
    for it in those:
        (NAMED.get(it.name) or OF_KIND[it.kind])(walk, it.name)
    walk.rest("left over")


def answer(walk: Walk, code: CC | None, plain: bytes | None) -> None:
    tag, number = header(walk, "response", code_words)
    if number or code is None:
        return
    walk.sort = HANDLE
    for it in code.answered_handles:
        walk.handle(it.name)
    walk.sort, behind = HEADER, walk.end
    if tag == frames.SESSIONS:
        size = walk.number(4, "parameterSize", size_words)
        walk.end = min(walk.end, walk.at + size)
    parameters(walk, code.answered_parameters, plain)
    walk.end, walk.sort = behind, ENTRY
    entries(walk, behind, is_command=False)


def code_words(code: int) -> str:
    if not code:
        return "SUCCESS"
    name, place = frames.spelled_code(code)
    return f"{name}/{place}" if place else name or "no code that is known"
