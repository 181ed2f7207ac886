"""The completing layer above the device. It answers commands that the device, by design, does not
support (docs/TOOLS.md). The context of an object or of a sequence object contains that object; the
context of a session is only a token, and the session stays in the device. The layer itself keeps
the sequence objects.
"""

from __future__ import annotations

import dataclasses
from dataclasses import dataclass
from typing import Callable, Self

from tpmsim.model import capability, completion_rows, contexts, device_properties
from tpmsim.model import hidden_sessions, sequence_commands
from tpmsim.model.completion_properties import Counts, properties
from tpmsim.model.completion_words import refusal_words
from tpmsim.model.general import Refusal
from tpmsim.model.machine import Model, Outcome, PLACE_BITS, SESSIONS
from tpmsim.model.object_rules import Object
from tpmsim.model.sequence_sessions import SessionUse
from tpmsim.model.sequences import NO_SEQUENCES, SequenceObject, Slots
from tpmsim.model.state_text import Layer
from tpmsim.standard import CC, Fields, frames, is_session, number, NUMBERED, RH_NULL, Short, sized
from tpmsim.standard import TRANSIENT
from tpmsim.standard.handle_kinds import first_byte

# The commands that only the layer supports, each with its attributes in TPM2_GetCapability.
STIR_RANDOM, CONTEXT_LOAD, CONTEXT_SAVE = 0x146, 0x161, 0x162
OWN_COMMANDS = {
    **{STIR_RANDOM: 0x146, CONTEXT_LOAD: 0x1000_0161, CONTEXT_SAVE: 0x0200_0162},
    **{it: it for it in completion_rows.ROWS},
    **sequence_commands.COMMANDS,
}
MOST_STIRRED = 128

# A response code that only the layer returns.
OWN_CODES = {"TOO_MANY_CONTEXTS": 0x12E}

# The tag of a TPM 1.2 command, and the device's response to it.
OF_FAMILY_1, BAD_TAG = 0xC1, frames.HEADER.pack(0xC4, 10, 0x1E)

LISTS = {
    capability.ALGORITHMS: "the algorithms",
    capability.HANDLES: "the handles",
    capability.COMMANDS: "the commands",
    capability.PROPERTIES: "the properties",
    capability.PCR_PROPERTIES: "the properties of PCRs",
    **{it: "an empty list" for it in capability.NOTHING},
}

# The first bytes of a session's token; and, in a session's context, the number of bytes between the
# sequence number and the token's handle.
TOKEN, BETWEEN = b"tpmsim 1", 26

LAST_SEQUENCE = 2**64 - 1

Execute = Callable[[bytes, int, bytes, int], Outcome]
# Places an object in the device. Returns its handle, or None if no slot is free.
Place = Callable[[Object], int | None]


@dataclass(frozen=True)
class Completed:
    """The final outcome of a command, the outcome that the device alone gave, and what the layer
    did, if anything. `sent` is the outcome of the command that the layer sent to the device, if it
    sent one, and `use` is the session in the first entry of the client's command, if the layer
    checked the HMAC of that entry.
    """

    outcome: Outcome
    own: Outcome
    did: str = ""
    sent: Outcome | None = None
    use: SessionUse | None = None


@dataclass(frozen=True)
class Asked:
    """A command without sessions."""

    code: int
    parameters: bytes


def asked_of(buffer: bytes) -> Asked | None:
    fields = Fields(buffer)
    try:
        tag, size, code = fields.number(2), fields.number(4), fields.number(4)
    except Short:
        return None
    is_plain = tag == frames.NO_SESSIONS and size == len(buffer)
    return Asked(code, fields.data) if is_plain else None


def numbers_of(parameters: bytes, count: int) -> list[int] | None:
    """Returns `count` numbers of four bytes; None if the parameters have any other size."""
    if len(parameters) != 4 * count:
        return None
    fields = Fields(parameters)
    return [fields.number(4) for _ in range(count)]


def refused(outcome: Outcome, name: str) -> Outcome:
    code = OWN_CODES.get(name) or frames.code_of(name)
    return Outcome(frames.refusal(code), outcome.row, name)


def told(outcome: Outcome, parameters: bytes = b"") -> Outcome:
    return Outcome(frames.success(parameters), outcome.row)


def names_session(context: bytes) -> bool:
    """Returns whether the savedHandle of a context is that of a session. The savedHandle follows
    the sequence number. Any other context is parsed as the context of an object or a sequence
    object.
    """
    fields = Fields(context)
    try:
        fields.number(8)
        return is_session(fields.number(4))
    except Short:
        return False


class Completion:
    """What the layer remembers about a device: a number that is new at each start of the layer, so
    that the layer recognizes its own contexts; the sequence number of the last context; for each
    saved session the sequence number of its context; and the sequence objects.
    """

    def __init__(self, start: int = 0) -> None:
        self.start, self.count = start, 0
        self.sessions = [0] * SESSIONS
        self.sequences: Slots = NO_SEQUENCES.copy()

    @classmethod
    def of(cls, numbers: Layer) -> Self:
        """Returns the layer that a state text describes."""
        made = cls(numbers.start)
        made.count, made.sessions = numbers.count, list(numbers.sessions)
        made.sequences = list(numbers.sequences)
        return made

    @property
    def numbers(self) -> Layer:
        """The layer's fields in a state text."""
        return Layer(self.start, self.count, list(self.sessions), list(self.sequences))

    def execute(
        self, device: Model, event: tuple[bytes, int, bytes, int], execute: Execute, place: Place
    ) -> Completed:
        """Executes a command with the layer. `event` is its buffer, locality, random bytes and
        milliseconds. `execute` executes it on the device, and `place` places the object of a
        context there.
        """
        given, locality, random, elapsed = event
        saved = hidden_sessions.first(given, self.is_saved)
        buffer = hidden_sessions.hidden(given, saved)
        own = execute(buffer, locality, random, elapsed)
        self.forget(device)

        def send(command: bytes) -> Outcome:
            sent = execute(command, locality, random, 0)
            self.forget(device)
            return sent

        done = self.on_sequence(device, buffer, own, send)
        done = done or self.reply(device, buffer, own, place)
        if saved is None or done.did:
            return done
        return dataclasses.replace(done, did=saved.words)

    def forget(self, device: Model) -> None:
        """Forgets the contexts of sessions that have ended. Forgets the sequence objects if the
        device is not started.
        """
        taken = {it & PLACE_BITS for it in device.sessions}
        self.sessions = [it if at in taken else 0 for at, it in enumerate(self.sessions)]
        if not device.started:
            self.sequences = NO_SEQUENCES.copy()

    def saved(self, handle: int) -> int:
        place = handle & PLACE_BITS
        return self.sessions[place] if place < SESSIONS else 0

    def is_saved(self, handle: int) -> bool:
        """Returns whether a handle is that of a saved session, whose context is not loaded."""
        return is_session(handle) and self.saved(handle) != 0

    # Responses of the layer.

    def on_sequence(
        self, device: Model, buffer: bytes, own: Outcome, send: Callable[[bytes], Outcome]
    ) -> Completed | None:
        """Returns the answer to a command on sequence objects; None for any other command. `send`
        executes a command of the layer on the device.
        """
        if not device.started:
            return None
        try:
            found = sequence_commands.served(device, self.sequences, buffer, own.refused)
        except sequence_commands.Wrong as wrong:
            return Completed(refused(own, wrong.name), own, wrong.words)
        except Refusal as refusal:
            code = int.from_bytes(buffer[6 : frames.HEADER_BYTES], "big")
            return Completed(refused(own, refusal.name), own, refusal_words(code, refusal))
        if found is None:
            return None
        if isinstance(found, sequence_commands.Sent):
            return self.sent(found, own, send(found.command))
        self.sequences = found.slots
        return Completed(Outcome(found.response, own.row), own, found.words)

    def sent(self, found: sequence_commands.Sent, own: Outcome, sent: Outcome) -> Completed:
        """Returns the answer to a command on sequence objects after the device executed the command
        that the layer sent.
        """
        if sent.refused:
            outcome = Outcome(sent.response, own.row, sent.refused)
            words = f"the device refuses the layer's TPM2_{found.code.name}"
            return Completed(outcome, own, words, sent, found.use)
        done, words = found.done(sent.response), found.work.words
        self.sequences = done.slots
        if found.use is not None:
            by = f"session {found.use.entry.handle:08x}"
            words += f", and the device accepts the layer's TPM2_{found.code.name} by {by}"
        return Completed(Outcome(done.response, own.row), own, words, sent, found.use)

    def reply(self, device: Model, buffer: bytes, own: Outcome, place: Place) -> Completed:
        stands, asked = Completed(own, own), asked_of(buffer)
        if asked is None:
            is_probe = int.from_bytes(buffer[:2], "big") == OF_FAMILY_1 and len(buffer) > 1
            if not is_probe or own.response != BAD_TAG:
                return stands
            words = "the tag is TPM 1.2's, and the answer says that there is none"
            return Completed(refused(own, "VALUE"), own, words)
        if not device.started:
            return stands
        if own.refused == "COMMAND_CODE":
            return self.served(device, asked, stands, place)
        if asked.code == CC.GetCapability:
            return self.capability(device, asked, stands)
        return stands

    def served(self, device: Model, asked: Asked, stands: Completed, place: Place) -> Completed:
        own, numbers = stands.own, numbers_of(asked.parameters, 1)
        if asked.code == STIR_RANDOM:
            size = int.from_bytes(asked.parameters[:2], "big")
            is_whole = len(asked.parameters) == 2 + size and size <= MOST_STIRRED
            return Completed(told(own), own, "the bytes are not used") if is_whole else stands
        if asked.code == CONTEXT_LOAD:
            return self.load(device, asked.parameters, own, place)
        if asked.code == CONTEXT_SAVE and numbers is not None:
            return self.save(device, numbers[0], own)
        if asked.code in completion_rows.ROWS:
            answer, fault, words = completion_rows.answer(device, asked.code, asked.parameters)
            return Completed(refused(own, fault) if fault else told(own, answer), own, words)
        return stands

    def capability(self, device: Model, asked: Asked, stands: Completed) -> Completed:
        wanted = numbers_of(asked.parameters, 3)
        found = self.listed(device, wanted, stands.own) if wanted else None
        if wanted is None or found is None:
            return stands
        elements = [text for at, text in found if at >= wanted[1]]
        given = elements[: min(wanted[2], capability.MOST_ELEMENTS)]
        more = number(len(given) < len(elements), 1)
        head = more + number(wanted[0], 4) + number(len(given), 4)
        words = f"{LISTS[wanted[0]]} with the layer"
        return Completed(told(stands.own, head + b"".join(given)), stands.own, words)

    def listed(
        self, device: Model, wanted: list[int], own: Outcome
    ) -> list[tuple[int, bytes]] | None:
        """Returns the elements of a list that the layer makes, each with the number that selects it
        in a request; None for other lists.
        """
        if own.refused:
            return self.unserved(wanted[0]) if own.refused == "VALUE/p1" else None
        if wanted[0] == capability.COMMANDS:
            served = {it: capability.command_attributes(code) for it, code in NUMBERED.items()}
            commands = served | OWN_COMMANDS
            return [(it, number(told, 4)) for it, told in sorted(commands.items())]
        if wanted[0] == capability.PROPERTIES:
            found = properties(device, self.counts(device), len(OWN_COMMANDS))
            return [(it, number(it, 4) + number(told, 4)) for it, told in sorted(found.items())]
        return self.handles(device, wanted[1] >> 24) if wanted[0] == capability.HANDLES else None

    @staticmethod
    def unserved(wanted: int) -> list[tuple[int, bytes]] | None:
        """Returns the elements of a list that the device refused to return."""
        if wanted == capability.ALGORITHMS:
            algorithms = device_properties.ALGORITHMS.items()
            return [(it, number(it, 2) + number(told, 4)) for it, told in algorithms]
        if wanted == capability.PCR_PROPERTIES:
            selected = device_properties.pcr_properties().items()
            octets = ((it, bits.to_bytes(3, "little")) for it, bits in selected)
            return [(it, number(it, 4) + number(3, 1) + text) for it, text in octets]
        return [] if wanted in capability.NOTHING else None

    def counts(self, device: Model) -> Counts:
        saved = sum(bool(it) for it in self.sessions)
        objects = sum(first_byte(it) == TRANSIENT for it in device.objects)
        return Counts(len(device.sessions) - saved, saved, objects)

    def handles(self, device: Model, kind: int) -> list[tuple[int, bytes]] | None:
        """Returns the handles of loaded (kind 02) or saved (kind 03) sessions, or of transient and
        sequence objects.
        """
        if kind == TRANSIENT:
            objects = sorted(it for it in device.objects if first_byte(it) == TRANSIENT)
            held = objects + sequence_commands.handles_of(self.sequences)
            return [(it, number(it, 4)) for it in held]
        if kind not in (frames.HMAC_SESSION, frames.POLICY_SESSION):
            return None
        is_saved = kind == frames.POLICY_SESSION
        by_place = sorted((it & PLACE_BITS, it) for it in device.sessions)
        sessions = [it for it in by_place if bool(self.sessions[it[0]]) == is_saved]
        return [(kind << 24 | at, number(it, 4)) for at, it in sessions]

    # Contexts.

    def token(self, handle: int, sequence: int) -> bytes:
        """Returns the context of a session."""
        token = TOKEN + number(self.start, 8) + number(handle, 4)
        return number(sequence, 8) + number(handle, 4) + number(RH_NULL, 4) + sized(token)

    def save(self, device: Model, handle: int, own: Outcome) -> Completed:
        if first_byte(handle) != TRANSIENT and not is_session(handle):
            words = f"{handle:08x} is neither a transient object nor a session"
            return Completed(refused(own, "VALUE/h1"), own, words)
        why_not = self.why_not_saved(device, handle)
        if why_not:
            return Completed(refused(own, "REFERENCE_H0"), own, why_not)
        if self.count == LAST_SEQUENCE:
            return Completed(refused(own, "TOO_MANY_CONTEXTS"), own, "no sequence is left")
        self.count += 1
        text, words = self.saved_as(device, handle)
        return Completed(told(own, text), own, f"context {self.count} of {words}")

    def why_not_saved(self, device: Model, handle: int) -> str:
        """Returns why the entity with this handle cannot be saved; an empty string if it can."""
        if not is_session(handle):
            is_there = handle in device.objects or self.named(handle) is not None
            return "" if is_there else f"object {handle:08x} is not there"
        if handle not in device.sessions:
            return f"session {handle:08x} is not there"
        return f"session {handle:08x} is saved already" if self.saved(handle) else ""

    def saved_as(self, device: Model, handle: int) -> tuple[bytes, str]:
        """Returns the context of an object, a sequence object or a loaded session, with the latest
        sequence number, and a text that says what was saved.
        """
        start, count, named = self.start, self.count, self.named(handle)
        if handle in device.objects:
            text = contexts.sealed(device, start, count, device.objects[handle])
            return text, f"object {handle:08x}, which stays loaded"
        if named is not None:
            text = contexts.sealed(device, start, count, named.held)
            return text, f"{named.words}, which stays loaded"
        self.sessions[handle & PLACE_BITS] = count
        return self.token(handle, count), f"session {handle:08x}, which stays in its slot"

    def named(self, handle: int) -> sequence_commands.Named | None:
        """Returns the sequence object with this handle, if there is one."""
        return sequence_commands.named(self.sequences, handle)

    def load(self, device: Model, context: bytes, own: Outcome, place: Place) -> Completed:
        if names_session(context):
            return self.load_session(device, context, own)
        try:
            content = contexts.opened(device, self.start, context)
        except contexts.Fault as fault:
            return Completed(refused(own, fault.name), own, fault.words)
        sequence = int.from_bytes(context[:8], "big")
        if isinstance(content, SequenceObject):
            return self.load_sequence(content, sequence, own)
        handle = place(content)
        if handle is None:
            return Completed(refused(own, "OBJECT_MEMORY"), own, "no slot of an object is free")
        words = f"the object of context {sequence} is loaded as {handle:08x}"
        return Completed(told(own, number(handle, 4)), own, words)

    def load_sequence(self, held: SequenceObject, sequence: int, own: Outcome) -> Completed:
        """Puts the sequence object of a context into the lowest free slot of the layer."""
        try:
            slot = sequence_commands.free_slot(self.sequences)
        except sequence_commands.Wrong as wrong:
            return Completed(refused(own, wrong.name), own, wrong.words)
        self.sequences = sequence_commands.with_slot(self.sequences, slot, held)
        handle = sequence_commands.HANDLES[slot]
        words = f"{held.words} of context {sequence} is loaded as {handle:08x}"
        return Completed(told(own, number(handle, 4)), own, words)

    def load_session(self, device: Model, context: bytes, own: Outcome) -> Completed:
        fields = Fields(context)
        try:
            sequence = fields.number(8)
            fields.take(BETWEEN)
            handle = fields.number(4)
        except Short:
            handle = sequence = 0
        if context != self.token(handle, sequence):
            words = "this layer did not make the context since its start"
            return Completed(refused(own, "INTEGRITY/p1"), own, words)
        if handle not in device.sessions or not sequence or sequence != self.saved(handle):
            words = f"the session of context {sequence}, {handle:08x}, is gone, or is loaded"
            return Completed(refused(own, "HANDLE/p1"), own, words)
        self.sessions[handle & PLACE_BITS] = 0
        return Completed(told(own, number(handle, 4)), own, f"the handle of context {sequence}")
