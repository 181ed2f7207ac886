"""The Python values of parameters, by kind: a number, bytes, or one of the structures below."""

from __future__ import annotations

from dataclasses import dataclass
from typing import Any, Callable, Iterable, NamedTuple, Protocol, TypeVar

from tpmsim.standard import frames
from tpmsim.standard.commands import Kind, Parameter
from tpmsim.standard.frames import AES, ALG_NULL, number, sized, XOR
from tpmsim.standard.reading import Fields
from tpmsim.standard.sessions import digest_bytes


class Bank(NamedTuple):
    algorithm: int
    pcrs: tuple[int, ...]


class Digest(NamedTuple):
    algorithm: int
    digest: bytes


@dataclass(frozen=True)
class Cipher:
    """The cipher of a session: AES, XOR with the hash algorithm of its masks, or ALG_NULL."""

    algorithm: int = ALG_NULL
    mask_algorithm: int | None = None


@dataclass(frozen=True)
class Ticket:
    tag: int
    hierarchy: int
    digest: bytes


@dataclass(frozen=True)
class Time:
    """Milliseconds since power-on, and in total; and the counts of resets and restarts."""

    time: int
    clock: int
    resets: int
    restarts: int
    is_safe: bool


@dataclass(frozen=True)
class Capability:
    """The response of TPM2_GetCapability: the capability, and its elements as sent. The properties
    below read the elements; a property that belongs to another capability raises ValueError.
    """

    capability: int
    data: bytes

    def read(self, capability: int, read: Callable[[Fields], Item]) -> list[Item]:
        """Returns the elements. Raises ValueError for another capability, or if bytes are left
        over.
        """
        if self.capability != capability:
            raise ValueError(f"these are elements of capability {self.capability}")
        fields = Fields(self.data)
        found = [read(fields) for _ in range(fields.number(4))]
        if fields.data:
            raise ValueError(f"{len(fields.data)} bytes are left after the elements")
        return found

    @property
    def algorithms(self) -> dict[int, int]:
        """The attributes of each algorithm, by its number."""
        return dict(self.read(0, lambda fields: (fields.number(2), fields.number(4))))

    @property
    def handles(self) -> list[int]:
        """The handles that are in use."""
        return self.read(1, lambda fields: fields.number(4))

    @property
    def commands(self) -> list[int]:
        """The attributes (TPMA_CC) of each command; the lowest 16 bits are its number."""
        return self.read(2, lambda fields: fields.number(4))

    @property
    def pcrs(self) -> list[Bank]:
        """The banks, with the PCRs of each."""
        return self.read(5, read_bank)

    @property
    def properties(self) -> dict[int, int]:
        """The value of each property, by its number."""
        return dict(self.read(6, lambda fields: (fields.number(4), fields.number(4))))


# Types that may be passed for a buffer, in addition to a structure.
BYTES = bytes, bytearray, memoryview
Item = TypeVar("Item")


class HasText(Protocol):
    @property
    def text(self) -> bytes:
        """The encoding of the structure."""
        ...


class Values(NamedTuple):
    write: Callable[[Any], bytes]
    read: Callable[[Fields], Any]


def numbers(size: int) -> Values:
    """Returns the conversions for numbers of this size, in bytes."""
    return Values(lambda value: number(value, size), lambda fields: fields.number(size))


def write_bytes(value: bytes | bytearray | memoryview | HasText) -> bytes:
    """Returns bytes without a size, or a structure's encoding."""
    return bytes(value) if isinstance(value, BYTES) else value.text


def write_buffer(value: bytes | bytearray | memoryview | HasText) -> bytes:
    """Returns a sized buffer that contains bytes or a structure's encoding."""
    return sized(write_bytes(value))


def read_list(read: Callable[[Fields], Any]) -> Callable[[Fields], list[Any]]:
    """Returns a function that reads a list, which starts with its count."""
    return lambda fields: [read(fields) for _ in range(fields.number(4))]


def write_algorithms(value: Iterable[int]) -> bytes:
    """Returns a list of algorithms."""
    written = [number(it, 2) for it in value]
    return number(len(written), 4) + b"".join(written)


def read_bank(fields: Fields) -> Bank:
    """Reads a bank of a selection."""
    algorithm = fields.number(2)
    bits = int.from_bytes(fields.take(fields.number(1)), "little")
    return Bank(algorithm, tuple(it for it in range(bits.bit_length()) if bits >> it & 1))


def read_digest(fields: Fields) -> Digest:
    """Reads a digest with its hash algorithm. Other TPMs also return SHA-384 and SHA-512 digests."""
    algorithm = fields.number(2)
    size = {0x000C: 48, 0x000D: 64}.get(algorithm) or digest_bytes(algorithm)
    return Digest(algorithm, fields.take(size))


def read_cipher(fields: Fields) -> Cipher:
    """Reads the cipher of a session."""
    algorithm = fields.number(2)
    if algorithm == AES:
        fields.take(4)
    return Cipher(algorithm, fields.number(2) if algorithm == XOR else None)


def read_time(fields: Fields) -> Time:
    """Reads what TPM2_ReadClock returns."""
    times = fields.number(8), fields.number(8)
    return Time(*times, fields.number(4), fields.number(4), bool(fields.number(1)))


def answered_alone(value: Any) -> bytes:
    """Raises TypeError: a parameter of this kind occurs only in responses, never in commands."""
    raise TypeError("it is answered alone")


VALUES: dict[Kind, Values] = {
    Kind.U8: numbers(1),
    Kind.U16: numbers(2),
    Kind.U32: numbers(4),
    Kind.BITS8: numbers(1),
    Kind.BITS64: numbers(8),
    Kind.CODE: numbers(4),
    Kind.HANDLE: numbers(4),
    Kind.HASH: numbers(2),
    Kind.HIERARCHY: numbers(4),
    Kind.ALGORITHMS: Values(write_algorithms, read_list(lambda fields: fields.number(2))),
    # The bytes up to the end: no parameter follows one of this kind.
    Kind.BYTES: Values(write_bytes, lambda fields: fields.take(len(fields.data))),
    Kind.BUFFER: Values(write_buffer, Fields.sized),
    Kind.BUFFERS: Values(lambda value: frames.sized_list(*value), read_list(Fields.sized)),
    Kind.SELECTION: Values(lambda value: frames.selection(*value), read_list(read_bank)),
    Kind.DIGESTS: Values(lambda value: frames.digests(*value), read_list(read_digest)),
    Kind.CIPHER: Values(
        lambda value: frames.symmetric(value.algorithm == AES, value.mask_algorithm), read_cipher
    ),
    Kind.TICKET: Values(
        lambda value: frames.ticket(value.tag, value.hierarchy, value.digest),
        lambda fields: Ticket(fields.number(2), fields.number(4), fields.sized()),
    ),
    Kind.TIME: Values(answered_alone, read_time),
    Kind.CAPABILITY: Values(
        answered_alone, lambda fields: Capability(fields.number(4), fields.take(len(fields.data)))
    ),
}


def read_all(parameters: tuple[Parameter, ...], text: bytes) -> dict[str, Any]:
    """Returns parameters by name; raises ValueError if there are too many bytes, Short if there are
    too few.
    """
    fields = Fields(text)
    found = {it.name: VALUES[it.kind].read(fields) for it in parameters}
    if fields.data:
        raise ValueError(f"{len(fields.data)} bytes are left after the parameters")
    return found
