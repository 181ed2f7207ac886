"""A command's parameters, and the fields of structures in them, as the device parses them."""

from __future__ import annotations

import functools
from dataclasses import dataclass
from typing import Any, Callable, Iterable, Sequence, TYPE_CHECKING, TypeVar

from tpmsim.model.general import Answer, Refusal
from tpmsim.standard import DIGEST_BYTES, Fields, frames, HASHES, PCRS, Profile

if TYPE_CHECKING:
    from tpmsim.model.policy_state import Session
    from tpmsim.model.nv_commands import Index
    from tpmsim.model.object_rules import Object
    from tpmsim.model.protection import Lockout
    from tpmsim.model.state import Saved
    from tpmsim.standard.aes import BlockCipher

T = TypeVar("T")

# A selection of PCRs: the hash algorithm of each bank, and the numbers of its PCRs.
Selection = list[tuple[int, list[int]]]

# The largest number of banks in a selection.
MOST_BANKS = 16


class Parameters:
    """A command's parameters, or the fields of a structure, parsed in order. They start at the
    offset `base`. A refusal names the parameter that is being parsed, and has the code `short` if
    there are too few bytes. Its operands are what was expected and the offset of the fault. `last`
    is the offset of the bytes that were read last.
    """

    def __init__(
        self, data: bytes, place: int = 0, short: str = "INSUFFICIENT", base: int = 0
    ) -> None:
        self.fields, self.place, self.short = Fields(data), place, short
        self.until, self.last = base + len(data), base

    @property
    def at(self) -> int:
        return self.until - len(self.fields.data)

    def next(self) -> Parameters:
        self.place += 1
        return self

    def refusal(self, code: str, expected: str, **operands: Any) -> Refusal:
        operands = {"expected": expected, "at": self.last, **operands}
        return Refusal(f"{code}/p{self.place}", "G11", None, **operands)

    def take(self, count: int) -> bytes:
        at, left = self.at, len(self.fields.data)
        if count > left:
            operands = dict(count=count, left=left, of_structure=self.short == "SIZE")
            raise self.refusal(self.short, "bytes", at=at, **operands)
        self.last = at
        return self.fields.take(count)

    def number(self, size: int) -> int:
        return int.from_bytes(self.take(size), "big")

    def one_of(self, size: int, allowed: Iterable[int], code: str) -> int:
        value = self.number(size)
        if value not in allowed:
            listed = allowed if isinstance(allowed, Sequence) else list(allowed)
            raise self.refusal(code, "choice", allowed=listed, digits=2 * size, value=value)
        return value

    def sized(self, most: int) -> bytes:
        size = self.number(2)
        if size > most:
            raise self.refusal("SIZE", "size", most=most, size=size)
        return self.take(size)

    def structure(self, read: Callable[[Parameters], T]) -> T:
        """Returns what `read` parses from a sized buffer; `read` has to use the whole buffer."""
        size, at = self.number(2), self.at
        fields = Parameters(self.take(size), self.place, "SIZE", at)
        value = read(fields)
        if left := len(fields.fields.data):
            raise self.refusal("SIZE", "structure", at=fields.at, left=left, of_structure=True)
        return value

    def hash(self) -> int:
        return self.one_of(2, HASHES, "HASH")

    def count(self, most: int) -> int:
        count = self.number(4)
        if count > most:
            raise self.refusal("SIZE", "count", most=most, count=count)
        return count

    def selection(self) -> Selection:
        banks = []
        for _ in range(self.count(MOST_BANKS)):
            algorithm = self.hash()
            self.one_of(1, (3,), "VALUE")
            bits = int.from_bytes(self.take(3), "little")
            banks.append((algorithm, [pcr for pcr in PCRS if bits >> pcr & 1]))
        return banks

    def sized_list(self, least: int, most: int) -> list[bytes]:
        count = self.count(most)
        if count < least:
            raise self.refusal("SIZE", "least", least=least, count=count)
        return [self.sized(DIGEST_BYTES) for _ in range(count)]

    def cipher(self, allowed: Iterable[int] = (frames.AES,)) -> int:
        """Parses the algorithm of a cipher; AES requires a 128-bit key and the mode CFB."""
        algorithm = self.one_of(2, allowed, "SYMMETRIC")
        if algorithm == frames.AES:
            self.one_of(2, (frames.AES_KEY_BITS,), "VALUE")
            self.one_of(2, (frames.CFB,), "MODE")
        return algorithm

    def symmetric(self) -> tuple[int, int | None]:
        """Parses the cipher of a session, if any, and for XOR the hash algorithm of its masks."""
        algorithm = self.cipher((frames.AES, frames.XOR, frames.ALG_NULL))
        return algorithm, self.hash() if algorithm == frames.XOR else None

    def end(self) -> None:
        if left := len(self.fields.data):
            raise Refusal("SIZE", "G11", expected="end", at=self.at, left=left)


# A parser of one parameter.
Reader = Callable[[Parameters], Any]


def integer(size: int) -> Reader:
    return lambda fields: fields.number(size)


def buffer(most: int = DIGEST_BYTES) -> Reader:
    return lambda fields: fields.sized(most)


def choice(size: int, allowed: Iterable[int], code: str = "VALUE") -> Reader:
    return lambda fields: fields.one_of(size, allowed, code)


def structure(read: Callable[[Parameters], T]) -> Reader:
    return lambda fields: fields.structure(read)


@dataclass(frozen=True)
class Request:
    """A command's request: its decrypted parameters, its locality, and random bytes."""

    handles: list[int]
    parameters: Parameters
    locality: int
    random: bytes


# A command as a function of its parameters, and as a function of a whole request.
Act = Callable[..., Answer]
Row = Callable[[Any, Request], Answer]

# The parsers of each command's parameters, by the name of the method that executes the command.
READERS: dict[str, tuple[Reader, ...]] = {}


def takes(*readers: Reader) -> Callable[[Act], Row]:
    """Makes a row from a function and a parser for each parameter. The row refuses bytes after the
    last parameter.
    """

    def row_of(act: Act) -> Row:
        READERS[act.__name__] = readers

        @functools.wraps(act)
        def row(device: Any, request: Request) -> Answer:
            given = [read(request.parameters.next()) for read in readers]
            request.parameters.end()
            return act(device, request, *given)

        return row

    return row_of


class Held:
    """The state of a device. Dictionaries have handles as keys. The times are in milliseconds."""

    block_cipher: BlockCipher
    profile: Profile
    started: bool
    auth_values: dict[int, bytes]
    seeds: dict[int, bytes]
    proofs: dict[int, bytes]
    disable_clear: bool
    lockout: Lockout
    banks: dict[int, list[bytes]]
    update_counter: int
    objects: dict[int, Object]
    indices: dict[int, Index]
    largest_counter: int
    sessions: dict[int, Session]
    time: int
    clock: int
    reset_count: int
    restart_count: int
    saved: Saved
    saved_banks: dict[int, list[bytes]]

    def name(self, handle: int) -> bytes:
        raise NotImplementedError

    def values(self, selection: list[tuple[int, list[int]]]) -> bytes:
        raise NotImplementedError

    def check_counter(self, changes: int) -> None:
        raise NotImplementedError
