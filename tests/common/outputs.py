"""Writes the responses and the trace of a script from the Python device."""

import pathlib
from dataclasses import dataclass
from typing import Sequence

from tpmsim.model.machine import Outcome
from tpmsim.standard import lines

RANDOM_BYTES = 256


def repeated(random: bytes) -> bytes:
    """Returns the random bytes of a command: the bytes of its `entropy` line, repeated."""
    return (random * RANDOM_BYTES)[:RANDOM_BYTES]


@dataclass(frozen=True)
class Played:
    """The outcome of a command, with its locality and the milliseconds since the previous command.
    A power cycle has no outcome, and prints only a line of the trace.
    """

    outcome: Outcome | None = None
    locality: int = 0
    elapsed: int = 0

    @property
    def response(self) -> str:
        return self.outcome.response.hex() + "\n" if self.outcome else ""

    @property
    def traced(self) -> str:
        if not self.outcome:
            return "power\n"
        return lines.traced(self.outcome, self.locality, self.elapsed) + "\n" + self.response


POWER = Played()


def write_responses(path: pathlib.Path, played: Sequence[Played]) -> None:
    """Writes NAME.out next to the script NAME.tpm."""
    path.with_suffix(".out").write_text("".join(it.response for it in played), "ascii")


def write_trace(path: pathlib.Path, played: Sequence[Played]) -> None:
    """Writes NAME.trace next to the script NAME.tpm."""
    path.with_suffix(".trace").write_text("".join(it.traced for it in played), "ascii")
