"""The context of a transient object or of a sequence object (TPM 2.0 Library, Part 1, section 30,
and Part 2, section 14). TPM2_ContextSave returns it, and TPM2_ContextLoad loads the object from it.

A context contains the whole object, encrypted. Its integrity value binds it to the proof of a
hierarchy, to the start of the completing layer, and to the device's count of TPM Resets. For a
transient object the hierarchy is the object's; for a sequence object it is the null hierarchy. In the
platform hierarchy, contexts are also bound to the proof of the owner hierarchy, which TPM2_Clear
changes.
"""

from __future__ import annotations

from dataclasses import dataclass
from typing import Self

from tpmsim.faults import TpmsimError
from tpmsim.model import image, sequence_text
from tpmsim.model.general import Refusal
from tpmsim.model.machine import Model
from tpmsim.model.object_rules import Object
from tpmsim.model.parameters import Parameters
from tpmsim.model.sequences import SequenceObject
from tpmsim.standard import aes, digest_bytes, Fields, kdfa, mac, number, RH_NULL, RH_OWNER
from tpmsim.standard import RH_PLATFORM, SHA256, Short, sized
from tpmsim.standard.objects import Attribute

# What a context contains.
Content = Object | SequenceObject

# The savedHandle of a transient object without stClear, of a sequence object, and of a transient
# object with stClear.
ORDINARY, SEQUENCE, ST_CLEAR = SAVED_HANDLES = 0x8000_0000, 0x8000_0001, 0x8000_0002

# The largest size of an object in a context: its hierarchy, its qualified Name, its public area and
# its sensitive area. The text of a sequence object is shorter.
OBJECT_BYTES = 4 + 36 + 84 + 202

INTEGRITY_BYTES = digest_bytes(SHA256)
BLOB_BYTES = 2 + INTEGRITY_BYTES + OBJECT_BYTES
HEAD_BYTES = 8 + 4 + 4
CONTEXT_BYTES = HEAD_BYTES + 2 + BLOB_BYTES


class Fault(TpmsimError):
    """Why bytes are not a context of this device: a response code, and what is wrong."""

    def __init__(self, name: str, words: str) -> None:
        super().__init__(name, words)
        self.name, self.words = name, words


TRUNCATED = "INSUFFICIENT/p1", "the context is truncated"
SAVED_HANDLE = "HANDLE/p1", "savedHandle is not that of an object, a sequence or a session"
HIERARCHY = "VALUE/p1", "the context's hierarchy is not a hierarchy"
SIZE = "SIZE/p1", "a size in the context is wrong, or bytes follow the context"
INTEGRITY = "INTEGRITY/p1", "the device did not make the context, or may no longer load it"
FAULTS = TRUNCATED, SAVED_HANDLE, HIERARCHY, SIZE, INTEGRITY


@dataclass(frozen=True)
class Binding:
    """The values to which a context is bound: the number of the completing layer's start,
    resetCount and restartCount.
    """

    start: int
    resets: int
    restarts: int

    @classmethod
    def of(cls, device: Model, start: int) -> Self:
        return cls(start, device.reset_count, device.restart_count)


@dataclass(frozen=True)
class Head:
    """The fields before the contextBlob."""

    sequence: int
    saved_handle: int
    hierarchy: int

    @classmethod
    def of(cls, sequence: int, content: Content) -> Self:
        if isinstance(content, SequenceObject):
            return cls(sequence, SEQUENCE, RH_NULL)
        is_cleared = content.public.has(Attribute.ST_CLEAR)
        return cls(sequence, ST_CLEAR if is_cleared else ORDINARY, content.hierarchy)

    @property
    def text(self) -> bytes:
        return number(self.sequence, 8) + number(self.saved_handle, 4) + number(self.hierarchy, 4)


# How a context is protected (Part 1, section 30.3).


def proof_of(device: Model, hierarchy: int) -> bytes:
    """Returns the secret with which the contexts of a hierarchy are protected."""
    proof = device.proofs[hierarchy]
    return proof + device.proofs[RH_OWNER] if hierarchy == RH_PLATFORM else proof


def key_and_iv(proof: bytes, start: int, head: Head) -> tuple[bytes, bytes]:
    """Returns the key and the IV with which the object is encrypted. They also depend on `start`,
    so the contexts of each start of the completing layer have different keys. Part 1 does not
    require this.
    """
    newer, older = number(head.sequence, 8), number(head.saved_handle, 4) + number(start, 8)
    made = kdfa(SHA256, proof, b"CONTEXT", newer, older, 2 * aes.BLOCK)
    return made[: aes.BLOCK], made[aes.BLOCK :]


def integrity(proof: bytes, binding: Binding, head: Head, cipher: bytes) -> bytes:
    """Returns the integrity value. It depends on restartCount only for an object with stClear."""
    restarts = binding.restarts if head.saved_handle == ST_CLEAR else 0
    counts = number(binding.start, 8) + number(binding.resets, 4) + number(restarts, 4)
    bound = counts + number(head.sequence, 8) + number(head.saved_handle, 4)
    return mac(SHA256, proof, bound + cipher)


def content_text(content: Content) -> bytes:
    """Returns the text that is encrypted in a context. For a sequence object it is the text of its
    slot in a state text.
    """
    if isinstance(content, SequenceObject):
        return sequence_text.object_text(content)
    return image.object_text(content)


def sealed(device: Model, start: int, sequence: int, content: Content) -> bytes:
    """Returns the context of an object of this device, or of a sequence object of its layer."""
    head = Head.of(sequence, content)
    proof = proof_of(device, head.hierarchy)
    keys = key_and_iv(proof, start, head)
    cipher = aes.cfb_encrypt(*keys, content_text(content), device.block_cipher)
    right = integrity(proof, Binding.of(device, start), head, cipher)
    return head.text + sized(sized(right) + cipher)


# Reading a context. The faults are in the order in which they are found.


def opened(device: Model, start: int, context: bytes) -> Content:
    """Returns what a context contains; raises Fault if the bytes are not a context of this device."""
    fields = Fields(context)
    head = read_head(fields)
    given, cipher = parts_of(read_blob(fields))
    proof = proof_of(device, head.hierarchy)
    if given != integrity(proof, Binding.of(device, start), head, cipher):
        raise Fault(*INTEGRITY)
    keys = key_and_iv(proof, start, head)
    return read_content(head, aes.cfb_decrypt(*keys, cipher, device.block_cipher))


def read_number(fields: Fields, size: int) -> int:
    try:
        return fields.number(size)
    except Short:
        raise Fault(*TRUNCATED) from None


def read_head(fields: Fields) -> Head:
    sequence = read_number(fields, 8)
    saved_handle = read_number(fields, 4)
    if saved_handle not in SAVED_HANDLES:
        raise Fault(*SAVED_HANDLE)
    hierarchy = read_number(fields, 4)
    if hierarchy not in image.HIERARCHIES:
        raise Fault(*HIERARCHY)
    return Head(sequence, saved_handle, hierarchy)


def read_blob(fields: Fields) -> bytes:
    """Returns the contextBlob, which has to be the rest of the context."""
    size = read_number(fields, 2)
    if size > BLOB_BYTES:
        raise Fault(*SIZE)
    if size > len(fields.data):
        raise Fault(*TRUNCATED)
    blob = fields.take(size)
    if fields.data:
        raise Fault(*SIZE)
    return blob


def parts_of(blob: bytes) -> tuple[bytes, bytes]:
    """Returns the integrity value and the encrypted object of a contextBlob."""
    fields = Fields(blob)
    try:
        given = fields.sized()
    except Short:
        raise Fault(*SIZE) from None
    if len(given) != INTEGRITY_BYTES:
        raise Fault(*SIZE)
    return given, fields.data


def read_content(head: Head, plain: bytes) -> Content:
    """Returns what a decrypted text encodes. The savedHandle and the hierarchy of the content must
    be those of the head.
    """
    fields = Parameters(plain)
    try:
        found = read_kind(fields, head.saved_handle)
        fields.end()
    except (Refusal, image.Fault):
        raise Fault(*INTEGRITY) from None
    if found is None or Head.of(head.sequence, found) != head:
        raise Fault(*INTEGRITY)
    return found


def read_kind(fields: Parameters, saved_handle: int) -> Content | None:
    """Reads what a context with this savedHandle contains; returns None for the text of a free
    slot.
    """
    if saved_handle == SEQUENCE:
        return sequence_text.read_slot(fields)
    return image.read_object(fields, image.HIERARCHIES)
