"""Finds the line of the log that last wrote each PCR, set each authorization value or incremented
each counter, and the lines that repeat an earlier command.
"""

from __future__ import annotations

import hashlib
from dataclasses import dataclass
from typing import Iterator, TYPE_CHECKING

from tpmsim.audit.log import section
from tpmsim.audit.watch import Seen
from tpmsim.explain.words import command_words
from tpmsim.model import pcrs, state
from tpmsim.model.history import Accepted, defined_index, History, ObjectPlaced
from tpmsim.model.machine import Model
from tpmsim.model.parameters import Selection
from tpmsim.policies.pcr_values import PcrValues
from tpmsim.standard import CC, HASH_WORDS, is_pcr, nv, PCRS, RH_ENDORSEMENT, RH_LOCKOUT, RH_OWNER
from tpmsim.standard import RH_PLATFORM, SE_HMAC, SHA1, SHA256
from tpmsim.standard.lines import handle_word

if TYPE_CHECKING:
    from tpmsim.audit.ground import Use
    from tpmsim.audit.session_lines import SessionLines

BANKS = SHA1, SHA256


class PcrLines:
    """The line that last wrote each PCR value, and the last line that wrote any PCR or was a
    TPM2_Clear. A value that no line wrote comes from the state at the start of the log, if the log
    starts with a state.
    """

    def __init__(self, history: History, text: str) -> None:
        self.pcrs, self.updates = history.pcrs, history.pcrs.updates
        self.last_change, self.last_words = 0, ""
        self.saved = {(bank, pcr): f"written before {text}" for bank in BANKS for pcr in PCRS}
        self.written = dict(self.saved)

    @property
    def change(self) -> str:
        """Returns a text that names the last change of a PCR."""
        if not self.last_change:
            return "something before the log wrote a PCR"
        return f"line {self.last_change} {self.last_words}"

    def note(self, seen: Seen) -> None:
        """Notes an event that is already in the history."""
        if self.pcrs.updates > self.updates:
            is_clear = seen.accepted.code == CC.Clear
            self.last_change = seen.line
            self.last_words = "was an accepted TPM2_Clear" if is_clear else "wrote a PCR"
        self.updates = self.pcrs.updates
        if seen.is_power_cycle:
            self.written = {}
            return
        event = seen.accepted
        self.written |= dict.fromkeys(written_by(event), f"line {seen.line}")
        if event.code == CC.Shutdown:
            self.saved = dict(self.written)
        if event.code == CC.Startup and event.given["startupType"] == state.STATE:
            for at, was in self.saved.items():
                if at[1] < state.SAVED_PCRS:
                    self.written[at] = f"{was}, and taken up by line {seen.line}"

    def values(self, selected: Selection) -> str:
        """Returns the current values, written as in a policy in words."""
        banks = [
            (bank, tuple((it, self.pcrs.values[bank][it]) for it in numbers))
            for bank, numbers in selected
        ]
        return PcrValues(tuple(banks)).word or "no PCR"

    def words(self, bank: int, pcr: int) -> str:
        value = self.pcrs.values[bank][pcr]
        by = "as a startup leaves it"
        if value != pcrs.starting_value(bank, pcr):
            by = self.written[bank, pcr]
        return f"{HASH_WORDS[bank]} PCR {pcr}: {value.hex()}, {by}"

    def report(self) -> Iterator[str]:
        title = "PCRs that are not as a startup leaves them, each with the line that wrote it last"
        told = (
            f"    {self.words(bank, pcr)}"
            for bank in BANKS
            for pcr, value in enumerate(self.pcrs.values[bank])
            if value != pcrs.starting_value(bank, pcr)
        )
        return section(title, told, "PCRs: each has the value that a startup gives it.")


def written_by(event: Accepted) -> list[tuple[int, int]]:
    pcr = event.handles[0] if event.handles else -1
    if not is_pcr(pcr):
        return []
    if event.code == CC.PCR_Extend:
        return [(bank, pcr) for bank, _ in event.given["digests"]]
    is_write = event.code in (CC.PCR_Event, CC.PCR_Reset)
    return [(bank, pcr) for bank in BANKS] if is_write else []


class ValueLines:
    """The line that set the authorization value of each handle. A value that no line set was
    already set when the log began.
    """

    def __init__(self, text: str) -> None:
        self.at_first = f"that {text} has" if text else "of a new device"
        self.set_by: dict[int, str] = {}

    def note(self, seen: Seen) -> None:
        if not seen.is_power_cycle:
            handles = handles_set(seen.accepted)
            self.set_by |= dict.fromkeys(handles, f"that line {seen.line} set")

    def place(self, seen: Seen, placed: ObjectPlaced) -> None:
        self.set_by[placed.handle] = f"that the context of line {seen.line} has"

    def words(self, handle: int, value: bytes) -> str:
        if not value:
            return "the empty value"
        return f"the value {self.set_by.get(handle, self.at_first)}"


def handles_set(event: Accepted) -> list[int]:
    if event.code in (CC.HierarchyChangeAuth, CC.NV_ChangeAuth):
        return event.handles[:1]
    if event.code == CC.NV_DefineSpace:
        return [defined_index(event)]
    if event.code in (CC.CreatePrimary, CC.Load):
        return [event.handle]
    if event.code == CC.EvictControl:
        return [event.given["persistentHandle"]]
    if event.code == CC.Startup and event.given["startupType"] == state.CLEAR:
        return [RH_PLATFORM]
    return [RH_OWNER, RH_ENDORSEMENT, RH_LOCKOUT] if event.code == CC.Clear else []


@dataclass
class Counted:
    """An NV counter: its first and last values, each with its line, and how it ceased to exist, if
    it did.
    """

    handle: int
    since: str
    values: tuple[int, ...] = ()
    lines: tuple[str, ...] = ()
    ended: str = ""

    def count(self, value: int, line: str) -> None:
        """Notes a new value, which is one more than the previous value."""
        self.values = (*self.values[:1], value)
        self.lines = (*self.lines[:1], line)

    def words(self) -> str:
        told = [f"{value} ({line})" for value, line in zip(self.values, self.lines)]
        counts = "no value", "one value, {}", "each value from {} to {}"
        values = counts[len(told)].format(*told)
        ended = f"; {self.ended}" if self.ended else ""
        return f"  {handle_word(self.handle)} {self.since}: {values}{ended}"


class CounterLines:
    def __init__(self, device: Model, history: History, text: str) -> None:
        self.device, self.history = device, history
        self.now: dict[int, Counted] = {}
        self.all: list[Counted] = []
        for handle in device.indices:
            if self.is_counter(handle):
                counted = self.begin(handle, f"of {text}")
                if handle in history.counters.values:
                    counted.count(history.counters.values[handle], text)

    def is_counter(self, handle: int) -> bool:
        return self.device.indices[handle].public.kind == nv.Type.COUNTER

    def begin(self, handle: int, since: str) -> Counted:
        counted = self.now[handle] = Counted(handle, since)
        self.all.append(counted)
        return counted

    def note(self, seen: Seen) -> None:
        """Notes an event that is already in the history."""
        if seen.is_power_cycle:
            return
        event, line = seen.accepted, f"line {seen.line}"
        if event.code == CC.NV_DefineSpace and self.is_counter(defined_index(event)):
            self.begin(defined_index(event), f"of {line}")
        elif event.code == CC.NV_Increment:
            handle = event.handles[1]
            self.now[handle].count(self.history.counters.values[handle], line)
        elif event.code in (CC.NV_UndefineSpace, CC.Clear):
            for handle in [it for it in self.now if it not in self.device.indices]:
                self.now.pop(handle).ended = f"undefined by {line}"

    def report(self) -> Iterator[str]:
        title = "NV counters, each with the values that it had"
        return section(title, (it.words() for it in self.all), "NV counters: none.")


class Repeats:
    """Commands that were sent again, byte for byte, and that the same live HMAC session accepted
    again.
    """

    def __init__(self, sessions: SessionLines) -> None:
        self.sessions, self.told = sessions, list[str]()

    def note(self, use: Use) -> None:
        """Notes an accepted entry, before its command is added to the history."""
        if use.live is None or use.live.kind != SE_HMAC or not use.entry.hmac:
            return
        handle, nonce = use.entry.handle, use.live.nonce_tpm
        accepted = self.sessions.live[handle].accepted
        digest = hashlib.sha256(use.seen.buffer).digest()
        if digest in accepted:
            line, nonce_then = accepted[digest]
            is_same = nonce == nonce_then
            why = "its nonceTPM is the same as then" if is_same else "two texts have the same hmac"
            session = f"HMAC session {handle_word(handle)} of {self.sessions.words(handle)}"
            again = f"line {use.seen.line}: {command_words(use.code)} of line {line} again"
            self.told.append(f"  {again}, by {session}: {why}")
        accepted[digest] = use.seen.line, nonce

    def report(self) -> Iterator[str]:
        title = "Commands accepted again with an hmac"
        return section(f"{title}, byte for byte", self.told, f"{title}: none.")
