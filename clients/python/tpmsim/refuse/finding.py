"""Finds the least change of a device's state under which a command meets a row. The model in Python
tries each named change on a copy of the state.
"""

from __future__ import annotations

import itertools
from dataclasses import dataclass
from typing import Iterator

from tpmsim.faults import TpmsimError
from tpmsim.model import image, state_text
from tpmsim.model.completion import Completion, CONTEXT_LOAD, CONTEXT_SAVE, STIR_RANDOM
from tpmsim.model.general import HEADER_CHECKS
from tpmsim.model.machine import Model
from tpmsim.model.protection import TRIES
from tpmsim.refuse import device_changes, entity_changes, session_changes
from tpmsim.refuse.change import Asked, Change
from tpmsim.refuse.reasons import reason_of
from tpmsim.standard import ALL_NUMBERED, CC, frames
from tpmsim.standard.rows import rows_of

# The check of a response that the completing layer makes itself.
LAYER = "layer"

# Commands that only the completing layer has, by the names in Part 3.
LAYER_NAMES = {STIR_RANDOM: "StirRandom", CONTEXT_LOAD: "ContextLoad", CONTEXT_SAVE: "ContextSave"}


class Unrefusable(TpmsimError):
    """No change of the state that is known makes the command meet this row; the message says which
    row it met instead.
    """


@dataclass(frozen=True, order=True)
class Met:
    """The row that a command met: a check, or `ok`, and the response code."""

    check: str
    code: int

    @property
    def is_refusal(self) -> bool:
        return self.code != 0

    def __str__(self) -> str:
        return "ok" if not self.is_refusal else f"{self.check} {self.code:03x}"


@dataclass(frozen=True)
class Event:
    """A command with all that its row depends on apart from the state. `completes` says whether the
    completing layer is above the device.
    """

    buffer: bytes
    locality: int = 0
    random: bytes = bytes(256)
    elapsed: int = 0
    completes: bool = False

    @property
    def name(self) -> str:
        return name_of(self.buffer)


def name_of(buffer: bytes) -> str:
    """Returns the name of a buffer's command; its number in hex if it is unknown here."""
    number = int.from_bytes(buffer[6:10], "big")
    own = ALL_NUMBERED[number].name if number in ALL_NUMBERED else f"{number:08x}"
    return LAYER_NAMES.get(number, own)


@dataclass(frozen=True)
class Wanted:
    """A refusal: a check, and its response code if a check has several."""

    check: str
    code: int | None = None

    @classmethod
    def of(cls, check: str, code: int | str | None = None) -> Wanted:
        """Returns a refusal by a check, such as `A2`, and a code as a number or by its name, such
        as `LOCKOUT` or `AUTH_FAIL/s1`.
        """
        return cls(check, frames.code_of(code) if isinstance(code, str) else code)

    def is_met(self, met: Met) -> bool:
        is_code = self.code is None or self.code == met.code
        return met.is_refusal and self.check == met.check and is_code

    def __str__(self) -> str:
        return self.check if self.code is None else f"{self.check} {self.code:03x}"


@dataclass(frozen=True)
class Found:
    """The words for a change, the state text after it, and the row that the command then meets."""

    words: str
    text: bytes
    met: Met


def executed(model: Model, layer: state_text.Layer | None, event: Event) -> Met:
    """Executes a command on a model, and returns its row."""
    given = event.buffer, event.locality, event.random, event.elapsed
    if not event.completes:
        outcome = model.execute(*given)
        return Met(outcome.row.check, code_in(outcome.response))
    completion = Completion.of(layer) if layer else Completion()
    done = completion.execute(model, given, model.execute, model.place)
    is_layers = done.outcome.response != done.own.response
    return Met(LAYER if is_layers else done.own.row.check, code_in(done.outcome.response))


def code_in(response: bytes) -> int:
    return int.from_bytes(response[6:10], "big")


def single(model: Model, asked: Asked, locality: int) -> Iterator[Change]:
    """Yields each change of one thing, the least first: what another program may do to a device,
    then what leaves Names, then what changes them.
    """
    yield from device_changes.of_slots(asked)
    yield from device_changes.of_pcrs(asked)
    yield from entity_changes.removals(model, asked)
    yield from entity_changes.values(model, asked)
    yield from device_changes.of_hierarchies(asked)
    yield from session_changes.of_sessions(model, asked, locality)
    yield from device_changes.of_protections(model, asked)
    yield from entity_changes.names(model, asked)
    yield from device_changes.of_power(model, asked)


def several(model: Model, asked: Asked) -> Iterator[Change]:
    """Yields changes of two or three things: whether an entity, a session or a policy depends on a
    protected value, and that value or the lockout.
    """
    protections = list(entity_changes.protections(model, asked))
    demands = list(session_changes.demands(model, asked))
    firsts = [*protections, *session_changes.bindings(model, asked, TRIES), *demands]
    firsts += [one.then(other) for one, other in itertools.product(demands, protections)]
    seconds = [*entity_changes.values(model, asked), *device_changes.of_protections(model, asked)]
    for first, second in itertools.product(firsts, seconds):
        yield first.then(second)


def changes_of(text: bytes, event: Event) -> Iterator[Change]:
    """Yields the changes of the state in `text` that are tried for a command, the least first."""
    model, _ = state_text.open_state(text)
    asked = Asked.of(event.buffer, model)
    yield Change("", lambda it: None)
    yield from single(model, asked, event.locality)
    yield from several(model, asked)


def tried(text: bytes, event: Event, words: str | None = None) -> Iterator[Found]:
    """Yields the row that a command meets in the state of `text`, and after each change of it; with
    `words`, only after the changes that have these words. A change that leads to an impossible
    state is left out.
    """
    changes = (it for it in changes_of(text, event) if words in (None, it.words))
    yield from filter(None, (after(text, event, it) for it in changes))


def after(text: bytes, event: Event, change: Change) -> Found | None:
    """Returns the row that a command meets after a change; None if no device is in such a state."""
    model, layer = state_text.open_state(text)
    change.act(model)
    changed = state_text.state_text(model, layer) if change.words else text
    try:
        model, layer = state_text.open_state(changed)
    except image.Fault:
        return None
    return Found(change.words, changed, executed(model, layer, event))


def rows_near(text: bytes, event: Event) -> list[Found]:
    """Returns each refusal that a command would meet after a change, with the least such change. A
    refusal of the header does not depend on the state, except of a command of the completing layer,
    which a device that is not started does not know.
    """
    found = dict[Met, Found]()
    for it in tried(text, event):
        if it.met.is_refusal and it.words and it.met.check not in HEADER_CHECKS:
            found.setdefault(it.met, it)
    return list(found.values())


def authorized(text: bytes, event: Event, change: Change) -> Met:
    """Returns the row that a command meets after a change, if the client knew the changed Names
    when it computed its HMACs.
    """
    model, layer = state_text.open_state(text)
    change.act(model)
    setattr(model, "accepts", lambda *given: True)
    return executed(model, layer, event)


def later(text: bytes, event: Event, change: Change) -> Met:
    """Returns the row that a command meets after a change that leaves Names."""
    model, layer = state_text.open_state(text)
    change.act(model)
    return executed(model, layer, event)


def lasting(model: Model, asked: Asked) -> Iterator[Change]:
    """Yields changes that leave Names, and that a device may have from the start of a run."""
    yield from device_changes.of_slots(asked)
    yield from device_changes.of_pcrs(asked)
    yield from entity_changes.values(model, asked)
    yield from device_changes.of_hierarchies(asked)
    yield from device_changes.of_protections(model, asked)


def rows_from_start(
    start: bytes, text: bytes, event: Event, names_alone: bool = True
) -> list[Found]:
    """Returns refusals that a command in the state `text` would meet if a Name, or with
    `names_alone` False something else, had been another one since the state `start`, where the
    client began. The text of each is the changed `start`. The row is only expected, since the
    client may act otherwise.
    """
    asked = Asked.of(event.buffer, state_text.open_state(text)[0])
    model, layer = state_text.open_state(start)
    tries = [(authorized, it) for it in entity_changes.names(model, asked)]
    if not names_alone:
        tries += [(later, it) for it in lasting(model, asked)]
    found = dict[Met, Found]()
    for row_after, change in tries:
        met = row_after(text, event, change)
        if not met.is_refusal or met in found:
            continue
        changed, _ = state_text.open_state(start)
        change.act(changed)
        begun = state_text.state_text(changed, layer)
        if state_text.fault_of(begun) is None:
            found[met] = Found(f"{change.words} from the start", begun, met)
    return list(found.values())


def found(text: bytes, event: Event, wanted: Wanted, words: str = "") -> Found:
    """Returns the least change under which a command meets a row; raises Unrefusable if there is
    none. The change with these words is tried first.
    """
    if words:
        for it in tried(text, event, words):
            if wanted.is_met(it.met):
                return it
    now, count = None, -1
    for count, it in enumerate(tried(text, event)):
        now = now or it.met
        if wanted.is_met(it.met):
            return it
    raise Unrefusable(why_unrefusable(event, wanted, f"it meets {now}", count))


def why_unrefusable(event: Event, wanted: Wanted, now: str, count: int) -> str:
    """Returns why no change was found, of `count` ones that were tried."""
    words = f"{event.name} cannot be refused by {wanted} here: {now}"
    words += f", and none of {count} changes of the state makes it meet {wanted}"
    rows = rows_of(CC[event.name]) if event.name in CC.__members__ else ()
    reasons = {reason_of(it) for it in rows if wanted.is_met(Met(it.check, it.code))}
    return f"{words}; {reasons.pop()}" if len(reasons) == 1 and all(reasons) else words
