"""The commands on sequence objects, which the completing layer answers (TPM 2.0 Library, Part 3,
sections 17 and 28.4). For two of these commands, the layer sends another command to the device:
TPM2_HMAC with an empty message for HMAC_Start, and TPM2_PCR_Extend for EventSequenceComplete. If an
HMAC session authorizes SequenceUpdate or SequenceComplete, the layer sends TPM2_GetRandom for zero
bytes.
"""

from __future__ import annotations

from dataclasses import dataclass, replace
from typing import Callable, TYPE_CHECKING

from tpmsim.model.complete_commands import ticketed
from tpmsim.model.general import MOST_NONCE_OR_HMAC, read_area, Refusal
from tpmsim.model.hash_states import HmacState
from tpmsim.model.nv_commands import BUFFER_BYTES
from tpmsim.model.object_commands import OBJECTS
from tpmsim.model.parameters import Parameters
from tpmsim.model.sequence_sessions import is_hmac_session, nonce_in, SessionUse
from tpmsim.model.sequences import EventSequence, GENERATED, HashSequence, HmacSequence
from tpmsim.model.sequences import Sequence, SequenceObject, SEQUENCES, Slots
from tpmsim.standard import ALG_NULL, CC, CONTINUE_SESSION, DIGEST_BYTES, Entry, Fields
from tpmsim.standard import first_byte, frames, HASHES, KEYEDHASH, number, RH_NULL, RS_PW, SHA1
from tpmsim.standard import SHA256, Short, sized, TRANSIENT, trimmed
from tpmsim.standard.handle_kinds import PRIMARY_HIERARCHIES

if TYPE_CHECKING:
    from tpmsim.model.machine import Model

SEQUENCE_COMPLETE, HMAC_START, SEQUENCE_UPDATE = 0x13E, 0x15B, 0x15C
EVENT_SEQUENCE_COMPLETE, HASH_SEQUENCE_START = 0x185, 0x186

# The commands, each with its attributes in TPM2_GetCapability.
COMMANDS = {
    **{SEQUENCE_COMPLETE: 0x0300_013E, HMAC_START: 0x1200_015B, SEQUENCE_UPDATE: 0x0200_015C},
    **{EVENT_SEQUENCE_COMPLETE: 0x0500_0185, HASH_SEQUENCE_START: 0x1000_0186},
}

# The handles of sequence objects follow those of the device's transient objects.
HANDLES = [TRANSIENT << 24 | OBJECTS + slot for slot in range(SEQUENCES)]


# The parameter of TPM2_GetRandom that requests no bytes.
NO_BYTES = number(0, 2)


class Wrong(Refusal):
    """A refusal by the layer, and what is wrong, in words."""

    def __init__(self, name: str, check: str, words: str) -> None:
        super().__init__(name, check)
        self.words = words


@dataclass(frozen=True)
class Done:
    """A command's response, the sequence objects after the command, and what the layer did."""

    response: bytes
    slots: Slots
    words: str


@dataclass(frozen=True)
class Work:
    """What an authorized command does: the parameters of its response, the sequence objects after
    the command, a text that says what the layer did, and the handle in the response, if any.
    """

    parameters: bytes
    slots: Slots
    words: str
    handle: bytes = b""

    def done(self, *entries: bytes) -> Done:
        """Returns the command's response, which has these entries."""
        response = frames.success(self.parameters, list(entries), self.handle)
        return Done(response, self.slots, self.words)


@dataclass(frozen=True)
class Sent:
    """A command that the layer sends to the device, what is done if the device accepts it, and the
    number of entries of the client's command. `use` is the session in the client's first entry, if
    that entry is a session's and the session exists.
    """

    code: CC
    command: bytes
    work: Work
    entries: int
    use: SessionUse | None = None

    def done(self, response: bytes) -> Done:
        """Returns what is done after the device returned this response."""
        first = frames.entry_answer()
        if self.use is not None:
            first = self.use.answer(self.work.parameters, nonce_in(response))
        return self.work.done(first, *[frames.entry_answer()] * (self.entries - 1))


@dataclass(frozen=True)
class Named:
    """A sequence object that a command names."""

    slot: int
    handle: int
    held: SequenceObject

    @property
    def words(self) -> str:
        return f"{self.held.words} {self.handle:08x}"


def with_slot(slots: Slots, slot: int, held: SequenceObject | None) -> Slots:
    """Returns the slots after the slot with this number got a sequence object, or became free."""
    return [held if at == slot else it for at, it in enumerate(slots)]


def handles_of(slots: Slots) -> list[int]:
    return [handle for handle, it in zip(HANDLES, slots) if it is not None]


def named(slots: Slots, handle: int) -> Named | None:
    """Returns the sequence object with this handle, if there is one."""
    slot = HANDLES.index(handle) if handle in HANDLES else None
    held = None if slot is None else slots[slot]
    return None if slot is None or held is None else Named(slot, handle, held)


def free_slot(slots: Slots) -> int:
    free = [slot for slot, it in enumerate(slots) if it is None]
    if not free:
        raise Wrong("OBJECT_MEMORY", "A1", f"all {SEQUENCES} sequences are taken")
    return free[0]


class Asked:
    """A command on sequence objects. Its handles, its authorization area and its parameters are
    parsed in this order. Each method raises Wrong at the first fault.
    """

    def __init__(self, device: Model, slots: Slots, code: int, fields: Fields) -> None:
        self.device, self.slots, self.code, self.fields = device, slots, code, fields

    def handle(self, place: int) -> int:
        try:
            return self.fields.number(4)
        except Short:
            raise Wrong(f"INSUFFICIENT/h{place}", "G6", "a handle is truncated") from None

    def named(self, place: int) -> Named:
        """Returns the sequence object that a handle names."""
        handle = self.handle(place)
        if first_byte(handle) != TRANSIENT:
            words = f"{handle:08x} is not the handle of a transient object"
            raise Wrong(f"VALUE/h{place}", "G6", words)
        found = named(self.slots, handle)
        if found is None:
            raise Wrong(f"REFERENCE_H{place - 1}", "G6", f"there is no sequence {handle:08x}")
        return found

    def entries(self, count: int) -> list[Entry]:
        """Returns the entries, of which there must be exactly `count`. Each is a password; the first
        one may be an HMAC session instead.
        """
        try:
            entries = read_area(self.fields)
        except Refusal as refusal:
            words = "the authorization area is malformed"
            raise Wrong(refusal.name, refusal.check, words) from None
        for place, entry in enumerate(entries[:count], 1):
            check_entry(place, entry)
        if len(entries) < count:
            raise missing()
        if len(entries) > count:
            words = f"entry {count + 1} authorizes nothing"
            raise Wrong(f"HANDLE/s{count + 1}", "G8", words)
        return entries

    def authorize(self, found: Named, place: int, entry: Entry) -> None:
        """Checks a password. The HMAC of a session is checked after the parameters."""
        if entry.handle == RS_PW and not found.held.is_authorized(entry.hmac):
            words = f"the password is not that of {found.words}"
            raise Wrong(f"BAD_AUTH/s{place}", "G9", words)

    @property
    def parameters(self) -> Parameters:
        return Parameters(self.fields.data)

    def without(self, found: Named) -> Slots:
        return with_slot(self.slots, found.slot, None)

    def started(self, auth: bytes, sequence: Sequence) -> Work:
        """Returns the work of putting a new sequence object into a free slot."""
        slot, held = free_slot(self.slots), SequenceObject.of(auth, sequence)
        words = f"{held.words} {HANDLES[slot]:08x} starts"
        return Work(b"", with_slot(self.slots, slot, held), words, number(HANDLES[slot], 4))

    def use(self, entry: Entry, names: list[bytes], auth_value: bytes) -> SessionUse | None:
        """Returns the use of the session in an entry; None if there is no such session."""
        session = self.device.sessions.get(entry.handle)
        if session is None:
            return None
        given = self.code, tuple(names), self.fields.data, auth_value
        return SessionUse(replace(session), entry, *given)

    def sent(
        self, code: CC, handle: int, entry: Entry, names: list[bytes], parameters: bytes, work: Work
    ) -> Sent:
        """Returns a command for the device. The entry authorizes its only handle, as it authorizes
        the first handle of the client's command. `names` are the Names of the client's handles.
        """
        value = key_value(self.device, entry, handle)
        use, count = self.use(entry, names, value), len(names)
        if use is not None:
            own = replace(use, code=code, names=(names[0],), parameters=parameters)
            entry = use.entry_for(own)
        command = frames.buffer_of(code, [handle], [entry], parameters)
        return Sent(code, command, work, count, use)

    def worked(self, found: Named, entry: Entry, work: Work) -> Done | Sent:
        """Returns what is done for a command on the sequence object of its only handle. For a
        session, the layer sends the device a command that does nothing with the same session.
        """
        if entry.handle == RS_PW:
            return work.done(frames.entry_answer())
        use = self.use(entry, [b""], trimmed(found.held.auth))
        if use is not None:
            own = replace(use, code=CC.GetRandom, names=(), parameters=NO_BYTES, auth_value=b"")
            entry = use.entry_for(own)
        command = frames.buffer_of(CC.GetRandom, [], [entry], NO_BYTES)
        return Sent(CC.GetRandom, command, work, 1, use)


def key_value(device: Model, entry: Entry, handle: int) -> bytes:
    """Returns the authorization value that the key of a session's HMAC contains."""
    is_there = entry.handle in device.sessions
    return device.auth_value(handle) if is_there and device.uses_auth_value(entry, handle) else b""


def missing() -> Wrong:
    return Wrong("AUTH_MISSING", "G7", "an entry is missing")


def check_entry(place: int, entry: Entry) -> None:
    if max(len(entry.nonce), len(entry.hmac)) > MOST_NONCE_OR_HMAC:
        raise Wrong(f"SIZE/s{place}", "G8", f"entry {place} is too long")
    if entry.handle != RS_PW and not (place == 1 and is_hmac_session(entry.handle)):
        kinds = "a password or an HMAC session" if place == 1 else "a password"
        raise Wrong(f"HANDLE/s{place}", "G8", f"entry {place} is not {kinds}")
    if entry.attributes & frames.RESERVED:
        raise Wrong(f"RESERVED_BITS/s{place}", "G8", f"entry {place} has a reserved bit")
    if entry.attributes & ~CONTINUE_SESSION:
        words = f"entry {place} has an attribute other than continueSession"
        raise Wrong(f"ATTRIBUTES/s{place}", "G8", words)


# The commands. A fault of a parameter raises a plain Refusal.


def hash_sequence_start(asked: Asked) -> Done:
    parameters = asked.parameters
    auth = parameters.next().sized(DIGEST_BYTES)
    algorithm = parameters.next().one_of(2, (ALG_NULL, *HASHES), "HASH")
    parameters.end()
    sequence: Sequence = HashSequence.of(algorithm) if algorithm != ALG_NULL else EventSequence()
    work = asked.started(auth, sequence)
    return Done(frames.success(b"", handle=work.handle), work.slots, work.words)


def hmac_start(asked: Asked) -> Sent:
    handle = asked.handle(1)
    (entry,) = asked.entries(1)
    parameters = asked.parameters
    auth = parameters.next().sized(DIGEST_BYTES)
    algorithm = parameters.next().one_of(2, (ALG_NULL, *HASHES), "HASH")
    parameters.end()
    work = asked.started(auth, keyed(asked.device, handle, algorithm))
    given = sized(b"") + number(algorithm, 2)
    return asked.sent(CC.HMAC, handle, entry, [asked.device.name(handle)], given, work)


def keyed(device: Model, handle: int, algorithm: int) -> Sequence:
    """Returns the sequence for an HMAC with a key. If the handle names no key with a hash, any
    sequence will do, because the device refuses TPM2_HMAC.
    """
    key = device.objects.get(handle)
    if key is None or key.public.kind != KEYEDHASH:
        return EventSequence()
    chosen = key.public.scheme if key.public.scheme != ALG_NULL else algorithm
    if chosen == ALG_NULL:
        return EventSequence()
    return HmacSequence(HmacState.of_key(chosen, key.sensitive.data))


def sequence_update(asked: Asked) -> Done | Sent:
    found = asked.named(1)
    (entry,) = asked.entries(1)
    asked.authorize(found, 1, entry)
    parameters = asked.parameters
    data = parameters.next().sized(BUFFER_BYTES)
    parameters.end()
    slots = with_slot(asked.slots, found.slot, found.held.after(data))
    work = Work(b"", slots, f"{len(data)} bytes are added to {found.words}")
    return asked.worked(found, entry, work)


def sequence_complete(asked: Asked) -> Done | Sent:
    found = asked.named(1)
    (entry,) = asked.entries(1)
    asked.authorize(found, 1, entry)
    parameters = asked.parameters
    data = parameters.next().sized(BUFFER_BYTES)
    hierarchy = parameters.next().one_of(4, PRIMARY_HIERARCHIES, "VALUE")
    parameters.end()
    sequence = found.held.after(data).sequence
    if isinstance(sequence, EventSequence):
        raise Wrong("MODE/h1", "A1", f"{found.words} ends with TPM2_EventSequenceComplete")
    if isinstance(sequence, HmacSequence) or sequence.beginning == GENERATED:
        hierarchy = RH_NULL
    answer = ticketed(asked.device, hierarchy, sequence.state.digest)
    return asked.worked(found, entry, Work(answer, asked.without(found), f"{found.words} ends"))


def event_sequence_complete(asked: Asked) -> Sent:
    pcr, found = asked.handle(1), asked.named(2)
    own, entry = asked.entries(2)
    asked.authorize(found, 2, entry)
    parameters = asked.parameters
    data = parameters.next().sized(BUFFER_BYTES)
    parameters.end()
    sequence = found.held.after(data).sequence
    if not isinstance(sequence, EventSequence):
        raise Wrong("MODE/h2", "A1", f"{found.words} ends with TPM2_SequenceComplete")
    values = (SHA1, sequence.sha1.digest), (SHA256, sequence.sha256.digest)
    digests = frames.digests(*values)
    work = Work(digests, asked.without(found), f"{found.words} ends")
    return asked.sent(CC.PCR_Extend, pcr, own, [asked.device.name(pcr), b""], digests, work)


AUTHORIZED: dict[int, Callable[[Asked], Done | Sent]] = {
    HMAC_START: hmac_start,
    SEQUENCE_UPDATE: sequence_update,
    SEQUENCE_COMPLETE: sequence_complete,
    EVENT_SEQUENCE_COMPLETE: event_sequence_complete,
}


def flush(slots: Slots, parameters: bytes) -> Done | None:
    """Returns the effect of TPM2_FlushContext on a sequence object; None for any other handle."""
    found = named(slots, int.from_bytes(parameters, "big")) if len(parameters) == 4 else None
    if found is None:
        return None
    words = f"{found.words} is flushed"
    return Done(frames.success(b""), with_slot(slots, found.slot, None), words)


def served(device: Model, slots: Slots, buffer: bytes, refused: str | None) -> Done | Sent | None:
    """Returns what the layer does with a command that a started device refused with the code
    `refused`; None if the command does not use sequence objects. Raises Refusal.
    """
    fields = Fields(buffer)
    try:
        tag, size, code = fields.number(2), fields.number(4), fields.number(4)
    except Short:
        return None
    is_plain = tag == frames.NO_SESSIONS
    if size != len(buffer) or not (is_plain or tag == frames.SESSIONS):
        return None
    if refused == "HANDLE/p1" and code == CC.FlushContext and is_plain:
        return flush(slots, fields.data)
    if refused != "COMMAND_CODE":
        return None
    if is_plain and code in AUTHORIZED:
        raise missing()
    if is_plain and code == HASH_SEQUENCE_START:
        return hash_sequence_start(Asked(device, slots, code, fields))
    return AUTHORIZED[code](Asked(device, slots, code, fields)) if code in AUTHORIZED else None
