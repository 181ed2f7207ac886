"""The TPM of one run: the proved device with the completing layer, which refuses one command."""

from __future__ import annotations

import time
from dataclasses import dataclass, replace
from typing import Protocol, Sequence

from tpmsim.device.base import Executed, Snapshot
from tpmsim.device.library import LibraryDevice
from tpmsim.model import state_text
from tpmsim.model.machine import PLACE_BITS
from tpmsim.refuse.finding import Event, found, LAYER, Met, Unrefusable
from tpmsim.standard import frames, is_session, TRANSIENT
from tpmsim.standard.handle_kinds import first_byte
from tpmsim.sweep.refusals import Refusal

# The random bytes of each run are the same.
SEED = b"tpmsim-sweep"

# The code of a command that the device does not have, and the check that refuses it.
NO_COMMAND = Met("G4", 0x143)


class CompletingDevice(LibraryDevice):
    """A device in this process with the library's completing layer above it."""

    def executed(self, buffer: bytes, event: tuple[object, ...]) -> None:
        self.library.tpmsim_complete(self.handle, buffer, len(buffer), *event)
        self.keep()


@dataclass(frozen=True)
class Sent:
    """A command that a client sent, and the row that it met."""

    name: str
    met: Met


def loaded(text: bytes) -> frozenset[int]:
    """Returns the handles of the sessions and transient objects in a state text. A session whose
    context is saved is not loaded.
    """
    model, layer = state_text.open_state(text)
    saved = layer.sessions if layer else [0] * len(model.sessions)
    sessions = {it for it in model.sessions if not layer or not saved[it & PLACE_BITS]}
    return frozenset(sessions | {it for it in model.objects if first_byte(it) == TRANSIENT})


def sessions_in(handles: frozenset[int]) -> int:
    """Returns how many of the handles are those of sessions."""
    return sum(map(is_session, handles))


class Asked(Protocol):
    """What refuses one command of a run: a Refusal, or a Demand."""

    @property
    def start(self) -> bytes | None:
        """The state text with which the run has to start, if any."""
        ...

    def due(self, before: Sequence[str], name: str) -> Refusal | None:
        """Returns the refusal of the next command, if it is the one; `before` are the names of the
        earlier commands.
        """
        ...


class SweptTpm:
    """A device in a given state, which refuses at most one command. If `keeps`, it keeps the state
    before each command. If a device is given, it is in that state already.
    """

    def __init__(
        self,
        text: bytes,
        asked: Asked | None = None,
        keeps: bool = False,
        device: LibraryDevice | None = None,
    ) -> None:
        if asked is not None and asked.start is not None:
            text = asked.start
        self.device = device or CompletingDevice(seed=SEED)
        if device is None:
            self.device.restore(text)
        self.asked, self.keeps = asked, keeps
        self.loaded_first, self.placed = loaded(text), frozenset[int]()
        self.sent, self.events = list[Sent](), list[tuple[bytes, Event]]()
        self.last = time.monotonic()
        # The refusal that a command met; or why a command could not be refused, with the state
        # before it if no change was found.
        self.met: Refusal | None = None
        self.trouble, self.unchanged = "", list[tuple[bytes, Event]]()

    def elapsed(self) -> int:
        """Returns the milliseconds since the last command."""
        before, self.last = self.last, time.monotonic()
        return min(int(1000 * (self.last - before)), 2**32 - 1)

    def execute(self, buffer: bytes, locality: int = 0) -> bytes:
        """Executes a command of the client, and returns the response."""
        event = Event(buffer, locality, self.device.drawn(), self.elapsed(), True)
        return self.respond(event).response

    def respond(self, event: Event) -> Executed:
        """Executes a command, or refuses it."""
        if self.keeps:
            self.events.append((self.device.state(), event))
        names = [it.name for it in self.sent]
        refusal = self.asked.due(names, event.name) if self.asked else None
        if refusal is None:
            return self.answered(event)
        if refusal.name != event.name:
            self.trouble = f"the client sent {event.name}, and not {refusal.name}"
            return self.answered(event)
        if refusal.is_faked:
            return self.faked(event, refusal)
        if refusal.start is not None:
            return self.refused_from_start(event, refusal)
        return self.refused_by_change(event, refusal)

    def refused_from_start(self, event: Event, refusal: Refusal) -> Executed:
        """Executes a command that the changed state should refuse, and compares its row."""
        executed = self.answered(event)
        met = self.sent[-1].met
        if refusal.wanted.is_met(met):
            self.met = replace(refusal, met=met)
        else:
            self.trouble = f"{event.name} meets {met}, and not {refusal.wanted}"
        return executed

    def faked(self, event: Event, refusal: Refusal) -> Executed:
        """Returns a refusal without executing the command."""
        self.met = refusal
        self.sent.append(Sent(event.name, refusal.met))
        response = frames.refusal(refusal.met.code)
        return Executed(event.buffer, response, event.locality, event.elapsed)

    def refused_by_change(self, event: Event, refusal: Refusal) -> Executed:
        """Changes the state so that the device refuses the command, and executes it."""
        text = self.device.state()
        try:
            change = found(text, event, refusal.wanted, refusal.words)
        except Unrefusable as fault:
            self.trouble = str(fault)
            self.unchanged.append((text, event))
            return self.answered(event)
        self.met = replace(refusal, met=change.met, words=change.words)
        self.placed = loaded(change.text) - loaded(text)
        begun = Snapshot(change.text, self.device.at, self.device.elapsed, change.text)
        self.device.restore(begun)
        return self.answered(event)

    def answered(self, event: Event) -> Executed:
        """Executes a command on the device."""
        given = event.buffer, event.locality, event.elapsed, event.random
        executed = self.device.answer(*given)
        code = int.from_bytes(executed.response[6:10], "big")
        own = Met(executed.check or "", code)
        is_layers = own.check == NO_COMMAND.check and own != NO_COMMAND
        self.sent.append(Sent(event.name, Met(LAYER, code) if is_layers else own))
        return executed

    def power_cycle(self) -> None:
        self.device.cycle()

    def left(self) -> frozenset[int]:
        """Returns the handles of what is loaded now, and was not loaded at first or placed by the
        change of the state.
        """
        return loaded(self.device.state()) - self.loaded_first - self.placed

    def close(self) -> None:
        self.device.close()
