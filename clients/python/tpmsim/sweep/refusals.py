"""The refusals of a sweep: of each command that a client sent, the rows that the device could have
met in a state near its own, and the warnings of the standard that this device never gives.
"""

from __future__ import annotations

from dataclasses import dataclass, field
from typing import Iterator, Sequence

from tpmsim.refuse.finding import Event, LAYER, LAYER_NAMES, Met, rows_from_start, rows_near
from tpmsim.refuse.finding import Wanted
from tpmsim.standard import CC
from tpmsim.standard.frames import spelled_code
from tpmsim.standard.rows import rows_named

# Warnings that another TPM may give at any time. They are faked: the command is not executed. Most
# clients send a command again after the first three, and report the others.
FAKED_CHECK = "faked"
FAKED = {0x922: "RETRY", 0x908: "YIELDED", 0x90A: "TESTING", 0x909: "CANCELED", 0x920: "NV_RATE"}

# A sweep does not fake these for TPM2_GetCapability, which writes nothing and takes no time: no TPM
# limits its rate, and nobody cancels it.
NOT_OF_CAPABILITIES = 0x909, 0x920


@dataclass(frozen=True)
class Refusal:
    """A refusal of one command of a run: the position of the command from 0, its name, the row that
    it meets, and the change of the state, if the refusal is not faked. If the state is changed from
    the start of the run, `start` is its text.
    """

    at: int
    name: str
    met: Met
    words: str = ""
    start: bytes | None = field(default=None, repr=False)

    @property
    def is_faked(self) -> bool:
        return self.met.check == FAKED_CHECK

    @property
    def wanted(self) -> Wanted:
        """The refusal without its place; a code of 0 means any."""
        return Wanted(self.met.check, self.met.code or None)

    def due(self, before: Sequence[str], name: str) -> Refusal | None:
        """Returns this refusal if as many commands precede the next one."""
        return self if len(before) == self.at else None

    @property
    def code_name(self) -> str:
        """The name of the response code, such as AUTH_FAIL/s1."""
        name, place = spelled_code(self.met.code)
        return FAKED.get(self.met.code) or (f"{name}/{place}" if place else name)

    def __str__(self) -> str:
        why = self.words or "the command is not executed"
        return f"{self.at + 1} {self.name} {self.met} {self.code_name}: {why}"


@dataclass(frozen=True)
class Only:
    """Which refusals a sweep is limited to: those of a command, and of one of its checks if it is
    not empty.
    """

    name: str
    check: str = ""

    @classmethod
    def of(cls, words: str) -> Only:
        """Returns the limit in words such as `NV_Read`, `NV_Read:A2` or `NV_Read:faked`. Raises
        BadValue if the table has no such refusal.
        """
        name, _, check = words.partition(":")
        if name not in LAYER_NAMES.values():
            rows_named(name, "" if check in (FAKED_CHECK, LAYER) else check)
        return cls(name, check)

    def allows(self, refusal: Refusal) -> bool:
        return self.name == refusal.name and self.check in ("", refusal.met.check)


def refusals_of(at: int, start: bytes, text: bytes, event: Event) -> Iterator[Refusal]:
    """Yields the refusals of a command that a client sent to a device in the state of `text`, which
    was in the state `start` when the client began.
    """
    near = rows_near(text, event)
    for found in near:
        yield Refusal(at, event.name, found.met, found.words)
    met = {it.met for it in near}
    for found in rows_from_start(start, text, event):
        if found.met not in met:
            yield Refusal(at, event.name, found.met, found.words, found.text)
    for code in FAKED:
        if event.name != CC.GetCapability.name or code not in NOT_OF_CAPABILITIES:
            yield Refusal(at, event.name, Met(FAKED_CHECK, code))


def planned(sent: list[tuple[bytes, Event]], only: list[Only], limit: int | None) -> list[Refusal]:
    """Returns the refusals to try, in the order of the commands."""
    found = list[Refusal]()
    for at, (text, event) in enumerate(sent):
        if not only or any(it.name == event.name for it in only):
            found += refusals_of(at, sent[0][0], text, event)
    chosen = [it for it in found if not only or any(each.allows(it) for each in only)]
    return chosen[:limit]
