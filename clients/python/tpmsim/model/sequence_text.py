"""The sequence objects in a state text (docs/table/state_text.md)."""

from __future__ import annotations

from tpmsim.model.hash_states import BLOCK, HashState, HmacState, INITIAL
from tpmsim.model.image import check
from tpmsim.model.parameters import Parameters
from tpmsim.model.sequences import EventSequence, HashSequence, HmacSequence, ORDINARY, Sequence
from tpmsim.model.sequences import SequenceObject, SEQUENCES, Slots
from tpmsim.standard import DIGEST_BYTES, number

# The first byte of a slot, which says what the slot contains.
NONE, HASH, EVENT, HMAC = KINDS = range(4)


def slots_text(slots: Slots) -> bytes:
    return b"".join(number(NONE, 1) if it is None else object_text(it) for it in slots)


def object_text(held: SequenceObject) -> bytes:
    kind, text = sequence_text(held.sequence)
    return number(kind, 1) + held.auth + text


def sequence_text(sequence: Sequence) -> tuple[int, bytes]:
    if isinstance(sequence, HashSequence):
        return HASH, state_text(sequence.state) + number(sequence.beginning, 1)
    if isinstance(sequence, EventSequence):
        return EVENT, state_text(sequence.sha1) + state_text(sequence.sha256)
    return HMAC, state_text(sequence.state.inner) + state_text(sequence.state.outer)


def state_text(state: HashState) -> bytes:
    words = b"".join(number(it, 4) for it in state.words)
    return number(state.algorithm, 2) + words + state.block + number(state.length, 8)


# Reading the slots.


def read_slots(fields: Parameters) -> Slots:
    """Reads the slots. At least one of them must be taken."""
    slots = [read_slot(fields) for _ in range(SEQUENCES)]
    check(any(slots))
    return slots


def read_slot(fields: Parameters) -> SequenceObject | None:
    kind = fields.one_of(1, KINDS, "VALUE")
    if kind == NONE:
        return None
    return SequenceObject(fields.take(DIGEST_BYTES), read_sequence(fields, kind))


def read_sequence(fields: Parameters, kind: int) -> Sequence:
    if kind == HASH:
        return HashSequence(read_state(fields), fields.one_of(1, range(ORDINARY + 1), "VALUE"))
    first, second = read_state(fields), read_state(fields)
    return EventSequence(first, second) if kind == EVENT else HmacSequence(HmacState(first, second))


def read_state(fields: Parameters) -> HashState:
    algorithm = fields.hash()
    words = tuple(fields.number(4) for _ in INITIAL[algorithm])
    return HashState(algorithm, words, fields.take(BLOCK), fields.number(8))
