"""Counts the refusals that logs have met."""

from __future__ import annotations

import collections
import functools
import itertools
from typing import Iterable

from tpmsim.explain.play import Event, Play
from tpmsim.model.machine import Outcome
from tpmsim.standard import ALL_NUMBERED
from tpmsim.standard.rows import AnyRow, every_row, Kind, Row, UNKNOWN


@functools.cache
def rows_by_name() -> dict[tuple[str, str, int], AnyRow]:
    """Returns all refusals by the name of the command, the check and the response code."""
    return {(it.name, it.check, it.code): it for it in every_row()}


class Met:
    """How often logs have met each refusal, and how often each command was accepted, by its name.
    `differing` counts the commands that the log's TPM answered differently from the model; they
    count for nothing else.
    """

    def __init__(self) -> None:
        self.refused = collections.Counter[AnyRow]()
        self.accepted = collections.Counter[str]()
        self.differing = 0

    def add(self, log: bytes, done: int = 0) -> str:
        """Counts a log without its first `done` commands and power cycles. Returns why it could not
        be read to its end, or an empty text.
        """
        play = Play()
        play.explains = lambda scene: False
        for event in itertools.islice(play.events(log), done, None):
            if event.differences:
                self.differing += 1
            else:
                self.count(event)
        return play.fault

    def count(self, event: Event) -> None:
        """Counts what the device itself answered, and the command that a completing layer sent."""
        for outcome in (event.own or event.outcome, event.sent):
            if outcome is not None:
                self.count_row(outcome)

    def count_row(self, outcome: Outcome) -> None:
        code = outcome.row.code
        name = ALL_NUMBERED[code].name if code in ALL_NUMBERED else UNKNOWN
        if outcome.refused is None:
            self.accepted[name] += 1
            return
        number = int.from_bytes(outcome.response[6:10], "big")
        row = rows_by_name().get((name, outcome.row.check, number))
        if row is not None:
            self.refused[row] += 1

    @property
    def used(self) -> set[str]:
        """The names of the commands that the logs contain."""
        return {*self.accepted, *(it.name for it in self.refused if isinstance(it, Row))}

    @property
    def commands(self) -> int:
        """The number of counted commands."""
        return self.accepted.total() + self.refused.total()

    def could(self, kind: Kind | None = None) -> list[AnyRow]:
        """Returns the refusals of one kind, or of all, that the used commands could have met."""
        used = self.used
        used.add(UNKNOWN)
        rows = (it for it in every_row() if it.name in used and not it.is_far)
        return [it for it in rows if kind in (None, it.kind)]

    def share(self, rows: Iterable[AnyRow]) -> tuple[int, int]:
        """Returns how many of these refusals were met, and how many there are."""
        listed = list(rows)
        return sum(it in self.refused for it in listed), len(listed)
