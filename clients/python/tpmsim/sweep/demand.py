"""One refusal that is asked for by name, as in `NV_Read:A2` or `Unseal:G9:LOCKOUT:2`; and the run of
a client with it.
"""

from __future__ import annotations

import contextlib
import os
import subprocess
from dataclasses import dataclass, replace
from typing import Sequence

from tpmsim.faults import BadValue, TpmsimError
from tpmsim.refuse.finding import Event, Found, LAYER_NAMES, Met, rows_from_start, Wanted
from tpmsim.standard import frames
from tpmsim.standard.rows import rows_named
from tpmsim.sweep.refusals import FAKED, FAKED_CHECK, Refusal
from tpmsim.sweep.runs import copy_of, Ran, Settings
from tpmsim.sweep.server import Server
from tpmsim.sweep.tpm import SweptTpm

# What a shell adds to the number of the signal that ended a program.
BY_SIGNAL = 128


class NotRefused(TpmsimError):
    """The client was not refused as demanded; the message says why."""


@dataclass(frozen=True)
class Demand:
    """The refusal of the `number`-th command with this name, counted from 1. A `code` of 0 means
    any code of the check. If `start` is given, it is the state text with which the client
    starts, in which the device refuses the command so; `words` say what was changed.
    """

    name: str
    check: str
    code: int = 0
    number: int = 1
    words: str = ""
    start: bytes | None = None

    @classmethod
    def of(cls, words: str) -> Demand:
        """Returns a demand in words: NAME:CHECK[:CODE][:N]. Raises BadValue if the table has no such
        refusal.
        """
        name, *rest = words.split(":")
        number = int(rest.pop()) if rest and rest[-1].isdecimal() else 1
        if len(rest) not in (1, 2) or number < 1:
            raise BadValue("a refusal", words, "NAME:CHECK[:CODE][:N], such as NV_Read:A2")
        check, code = rest[0], rest[1] if len(rest) == 2 else ""
        if check == FAKED_CHECK:
            return cls(name, check, faked_code(name, code), number)
        rows_named(name, check, code)
        return cls(name, check, frames.code_of(code) if code else 0, number)

    @property
    def wanted(self) -> Wanted:
        return Wanted(self.check, self.code or None)

    def due(self, before: Sequence[str], name: str) -> Refusal | None:
        """Returns the refusal of the command with this name, after others; None if it is another
        command.
        """
        if name != self.name or before.count(name) != self.number - 1:
            return None
        met = Met(self.check, self.code)
        return Refusal(len(before), name, met, self.words, self.start)


def faked_code(name: str, code: str) -> int:
    """Returns the number of a warning that is faked."""
    if name not in LAYER_NAMES.values():
        rows_named(name)
    found = [number for number, known in FAKED.items() if known == code]
    if not found:
        raise BadValue("code", code, f"one of {', '.join(FAKED.values())}")
    return found[0]


def from_start(demand: Demand, start: bytes, text: bytes, event: Event) -> Found | None:
    """Returns the change at the start of a run under which a command meets a demand; None if none
    is known.
    """
    expected = rows_from_start(start, text, event, names_alone=False)
    return next((it for it in expected if demand.wanted.is_met(it.met)), None)


def begun_changed(demand: Demand, base: Ran) -> Demand:
    """Returns a demand with the state in which the client has to start. Raises NotRefused if its
    run without a refusal has no such command, or no such state is known.
    """
    named = [it for it in base.events if it[1].name == demand.name]
    if len(named) < demand.number:
        raise NotRefused(not_sent(demand, base.names))
    found = from_start(demand, base.events[0][0], *named[demand.number - 1])
    if found is None:
        words = f"no change at the start makes {demand.name} meet {demand.wanted}"
        raise NotRefused(f"{words}; it may do so without --from-start")
    return replace(demand, start=found.text, words=found.words)


def not_sent(demand: Demand, names: Sequence[str]) -> str:
    """Returns the words for a client that did not send the command."""
    count, sent = names.count(demand.name), " ".join(dict.fromkeys(names))
    if count:
        return f"the client sent only {count} of {demand.number} {demand.name}"
    return f"the client sent no {demand.name}" + (f", but {sent}" if sent else ", and nothing else")


def run_demanded(settings: Settings, demand: Demand) -> tuple[int, Refusal]:
    """Runs the client with this program's own input and output, and returns its status, as a shell
    reports it, and the refusal that it met. Raises NotRefused if it met none.
    """
    tpm = SweptTpm(settings.text, demand)
    with contextlib.closing(tpm), copy_of(settings.copied) as folder:
        with Server(tpm.execute, tpm.power_cycle) as server:
            environment = {**os.environ, **server.environment}
            with subprocess.Popen(settings.words, cwd=folder, env=environment) as process:
                status = process.wait()
    if tpm.met is None:
        words = tpm.trouble or not_sent(demand, [it.name for it in tpm.sent])
        can = any(from_start(demand, settings.text, *it) for it in tpm.unchanged)
        raise NotRefused(words + ("; with --from-start it can be" if can else ""))
    return status if status >= 0 else BY_SIGNAL - status, tpm.met
