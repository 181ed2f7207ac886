"""Follows the events of a device in order, and records which entity each handle named."""

from dataclasses import dataclass, field
from functools import cached_property
from typing import Iterator

from tpmsim.explain.play import Event, Watched
from tpmsim.explain.words import handle_words
from tpmsim.model import nv_commands
from tpmsim.model.general import Command
from tpmsim.model.history import Accepted, defined_index, ObjectPlaced, PastEvent, PowerCycle
from tpmsim.model.machine import Model, Outcome
from tpmsim.model.protection import LOCKOUT_AUTH, TRIES
from tpmsim.standard import CC, KEYEDHASH, name_of, nv, objects, RH_LOCKOUT
from tpmsim.standard.lines import handle_word
from tpmsim.standard.objects import Attribute

Public = nv.Public | objects.Public

# The response code with which the checks of entries also refuse a first parameter that is cut off
# and cannot be decrypted. No entry causes this refusal.
OF_PARAMETERS = "INSUFFICIENT/p1"


class View:
    """The part of an entity that anyone may read: its public area, if it has one."""

    def __init__(self, handle: int, public: Public | None = None) -> None:
        self.handle, self.public = handle, public

    @cached_property
    def name(self) -> bytes:
        return self.public.name if self.public else name_of(self.handle)

    @property
    def index(self) -> nv.Public | None:
        return self.public if isinstance(self.public, nv.Public) else None

    @property
    def protection(self) -> str | None:
        if self.public is None:
            return LOCKOUT_AUTH if self.handle == RH_LOCKOUT else None
        return None if self.public.is_free else TRIES

    def takes_auth_value(self, code: CC) -> bool:
        if self.index:
            return nv_commands.takes_auth_value(self.index, code)
        return self.public is None or self.public.has(objects.Attribute.USER_WITH_AUTH)

    def takes_policy(self, code: CC) -> bool:
        if self.public is None or not self.public.auth_policy:
            return False
        return self.index is None or nv_commands.takes_policy(self.index, code)


def view_of(device: Model, handle: int) -> View:
    held = device.held(handle)
    return View(handle, held.public if held else None)


@dataclass
class Seen:
    """An event. If the command passed the general checks, `known` is the command with a view of
    each handle before it. If the command was accepted, `event` is what is known about it. If the
    completing layer loaded the object of a context for the command, `placed` is that object.
    """

    buffer: bytes = b""
    locality: int = 0
    elapsed: int = 0
    explained: Event | None = None
    known: Command | None = None
    views: list[View] = field(default_factory=list)
    event: Accepted | PowerCycle | None = None
    placed: ObjectPlaced | None = None
    line: int = 0

    @property
    def command(self) -> Command:
        assert self.known is not None
        return self.known

    @property
    def accepted(self) -> Accepted:
        assert isinstance(self.event, Accepted)
        return self.event

    @property
    def outcome(self) -> Outcome:
        assert self.explained is not None and self.explained.outcome is not None
        return self.explained.outcome

    @property
    def of_device(self) -> Outcome:
        """The outcome of the latest command that the device executed. If the completing layer sent
        a command, that is the latest one.
        """
        assert self.explained is not None
        return self.explained.sent or self.outcome

    @property
    def names(self) -> list[bytes]:
        return [it.name for it in self.views]

    @property
    def is_power_cycle(self) -> bool:
        return isinstance(self.event, PowerCycle)

    @property
    def is_refused_entry(self) -> bool:
        is_refused = self.event is None and self.explained is not None
        return is_refused and is_of_entry(self.of_device.row.check, self.of_device.refused)

    def view(self, handle: int) -> View:
        return self.views[self.command.handles.index(handle)]


def is_of_entry(check: str, refused: str | None) -> bool:
    return check in ("G9", "G10") and refused != OF_PARAMETERS


class Watch(Watched):
    """Observes what passes between a device and its caller; `seen` is the latest observed event, if
    any.
    """

    def __init__(self, device: Model) -> None:
        # Refusals that an entry caused are judged by the history instead.
        super().__init__(device, lambda scene: not is_of_entry(scene.check, scene.refused))
        self.seen: Seen | None = None
        setattr(device, "tell", self.told)

    @property
    def latest(self) -> Seen:
        assert self.seen is not None
        return self.seen

    def executed(
        self, buffer: bytes, locality: int, random: bytes, elapsed: int, completes: bool = False
    ) -> Outcome:
        """Executes a command."""
        self.seen = Seen(buffer, locality, elapsed)
        self.seen.explained = self.command(buffer, locality, random, elapsed, completes)
        return self.seen.outcome

    def authorize(self, command: Command, locality: int) -> None:
        self.latest.known = command
        self.latest.views = [view_of(self.model, it) for it in command.handles]
        super().authorize(command, locality)

    def told(self, event: PastEvent) -> None:
        if isinstance(event, ObjectPlaced):
            self.latest.placed = event
            return
        if isinstance(event, PowerCycle):
            self.seen = Seen()
        self.latest.event = event


INDICES = {
    nv.Type.ORDINARY: "an NV index of bytes",
    nv.Type.COUNTER: "an NV counter",
    nv.Type.BITS: "an NV index of bits",
    nv.Type.EXTEND: "an extended NV index",
}


def kind_words(public: Public) -> str:
    if isinstance(public, nv.Public):
        return INDICES[nv.Type(public.kind)]
    if public.kind == KEYEDHASH:
        return "an HMAC key" if public.has(Attribute.SIGN) else "sealed data"
    return "a storage key" if public.is_parent else "an AES key"


def means_words(public: Public) -> str:
    policy = f"the policy {public.auth_policy.hex()}" if public.auth_policy else ""
    if isinstance(public, nv.Public):
        return ", ".join([*public.means, *([policy] if policy else [])])
    if not public.has(Attribute.USER_WITH_AUTH):
        return f"by {policy} alone" if policy else "by nothing"
    return f"by its value or {policy}" if policy else "by its value"


def is_again(public: Public, had: Public) -> bool:
    """Whether two public areas have the same Name. The change of an index's Name at the index's
    first write is ignored.
    """
    if isinstance(public, nv.Public) and isinstance(had, nv.Public):
        had = had.but(cleared=nv.Attribute.WRITTEN)
        public = public.but(cleared=nv.Attribute.WRITTEN)
    return public.name == had.name


@dataclass
class Entity:
    """An entity during the time in which one handle names it, with its uses as lines of text."""

    handle: int
    title: str
    first: int = 0
    public: Public | None = None
    since: str = ""
    used: list[str] = field(default_factory=list)


class Entities:
    def __init__(self, device: Model, text: str) -> None:
        self.device = device
        self.now: dict[int, Entity] = {}
        self.all: list[Entity] = []
        for handle in (*device.objects, *device.indices):
            self.begin(handle, 0, f"of {text}")

    def begin(self, handle: int, line: int, since: str) -> None:
        public = view_of(self.device, handle).public
        assert public is not None
        title = f"{handle_word(handle)}, {kind_words(public)} {since}; {means_words(public)}"
        had = next((it for it in self.all if it.public and is_again(public, it.public)), None)
        if had is not None:
            title += f"; by its Name the one {had.since}"
        self.keep(Entity(handle, title, line, public, since))

    def keep(self, entity: Entity) -> Entity:
        self.now[entity.handle] = entity
        self.all.append(entity)
        return entity

    def of(self, handle: int) -> Entity:
        return self.now.get(handle) or self.keep(Entity(handle, handle_words(handle)))

    def place(self, seen: Seen, placed: ObjectPlaced) -> None:
        """Notes the object that was loaded from a saved context."""
        self.begin(placed.handle, seen.line, f"of line {seen.line} (ContextLoad)")

    def note(self, seen: Seen) -> None:
        """Notes an event that the device has executed."""
        if seen.is_power_cycle:
            return
        event, handle, by = seen.accepted, seen.accepted.answered, ""
        if event.code == CC.CreatePrimary:
            by = f"CreatePrimary, {handle_words(event.handles[0])}"
        elif event.code == CC.Load:
            by = f"Load under {handle_words(event.handles[0])}"
        elif event.code == CC.NV_DefineSpace:
            handle, by = defined_index(event), "NV_DefineSpace"
        elif event.code == CC.EvictControl:
            handle, copied = event.given["persistentHandle"], event.handles[1]
            by = f"EvictControl of {handle_words(copied)}" if handle != copied else ""
        if by and handle is not None:
            self.begin(handle, seen.line, f"of line {seen.line} ({by})")

    def report(self) -> Iterator[str]:
        used = [it for it in self.all if it.used]
        for entity in sorted(used, key=lambda it: (it.handle, it.first)):
            yield f"  {entity.title}"
            yield from entity.used
