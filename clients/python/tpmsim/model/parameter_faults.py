"""The faults that a command's parameters can have at check G11, each with parameters that have it.

An explorer follows every path through the parsers of a command's parameters. It writes the
parameters that it pretends to parse, and notes each refusal that could happen on the way.
"""

from __future__ import annotations

import functools
from typing import Any, Callable, Iterable, Sequence, TypeVar

from tpmsim.model.general import Refusal
from tpmsim.model.machine import ROWS
from tpmsim.model.parameters import Parameters, READERS
from tpmsim.standard import CC, number, PERSISTENT, sized

T = TypeVar("T")

# How many of the allowed values of a field are tried, and the number of elements of each list.
MOST_TRIED = 3
ELEMENTS = 2


class Choices:
    """The values that one path chooses: for each choice, which option, of how many."""

    def __init__(self) -> None:
        self.taken: list[tuple[int, int]] = []
        self.at = 0

    def choose(self, options: Sequence[int]) -> int:
        """Returns this path's option at the next choice; a new choice starts with the first one."""
        if self.at == len(self.taken):
            self.taken.append((0, len(options)))
        self.at += 1
        return options[self.taken[self.at - 1][0]]

    def advance(self) -> bool:
        """Goes on to the next path; returns false if this was the last one."""
        while self.taken and self.taken[-1][0] + 1 == self.taken[-1][1]:
            self.taken.pop()
        if self.taken:
            option, count = self.taken[-1]
            self.taken[-1] = option + 1, count
        self.at = 0
        return bool(self.taken)


class Explorer(Parameters):
    """Writes parameters, or the fields of the structure that `outer` contains, as it pretends to
    parse them. `found` gets the first parameters with each fault. `written` is what precedes the
    next field.
    """

    def __init__(
        self,
        found: dict[str, bytes],
        choices: Choices,
        outer: Explorer | None = None,
        short: str = "INSUFFICIENT",
    ) -> None:
        super().__init__(b"", outer.place if outer else 0, short)
        self.found, self.choices, self.outer = found, choices, outer
        self.written = b""

    def whole(self, fields: bytes) -> bytes:
        """Returns the parameters up to these fields, with a size before each structure."""
        return self.outer.whole(self.outer.written + sized(fields)) if self.outer else fields

    def note(self, code: str, wrong: bytes = b"") -> None:
        """Notes that the parameters have a fault if they end with these bytes."""
        self.found.setdefault(f"{code}/p{self.place}", self.whole(self.written + wrong))

    def refusal(self, code: str, expected: str, **operands: Any) -> Refusal:
        self.note(code)
        return super().refusal(code, expected, **operands)

    def take(self, count: int) -> bytes:
        self.note(self.short)
        self.written += bytes(count)
        return bytes(count)

    def number(self, size: int) -> int:
        """Chooses no bits, all bits, the first bit of the first byte, or a persistent handle."""
        self.note(self.short)
        options = [0, 2 ** (8 * size) - 1, 1 << 8 * size - 8]
        options += [PERSISTENT << 24] if size == 4 else []
        return self.chosen(size, options)

    def chosen(self, size: int, options: Sequence[int]) -> int:
        value = self.choices.choose(options)
        self.written += number(value, size)
        return value

    def one_of(self, size: int, allowed: Iterable[int], code: str) -> int:
        self.note(self.short)
        listed = list(allowed)
        self.note(code, number(next(it for it in range(256) if it not in listed), size))
        return self.chosen(size, listed[:MOST_TRIED])

    def sized(self, most: int) -> bytes:
        self.note(self.short)
        self.note("SIZE", number(most + 1, 2))
        self.written += sized(b"")
        return b""

    def count(self, most: int) -> int:
        self.note(self.short)
        self.note("SIZE", number(most + 1, 4))
        self.written += number(ELEMENTS, 4)
        return ELEMENTS

    def structure(self, read: Callable[[Parameters], T]) -> T:
        self.note(self.short)
        fields = Explorer(self.found, self.choices, self, "SIZE")
        value = read(fields)
        self.note("SIZE", sized(fields.written + b"\0"))
        self.written += sized(fields.written)
        return value


@functools.cache
def parameter_faults(command: CC) -> dict[str, bytes]:
    """Returns the response codes with which G11 refuses a command for a fault in a parameter, such
    as HASH/p1, each with parameters that have the fault. The refusal of bytes after the last
    parameter is not among them.
    """
    assert command in ROWS
    found, choices = dict[str, bytes](), Choices()
    is_last = False
    while not is_last:
        explorer = Explorer(found, choices)
        try:
            for read in READERS[command.method_name]:
                read(explorer.next())
        except Refusal:
            pass  # this path ends with a fault
        is_last = not choices.advance()
    return found
