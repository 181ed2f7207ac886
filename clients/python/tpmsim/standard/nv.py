"""The public areas of NV indices (TPM 2.0 Library, Part 2, section 13)."""

from __future__ import annotations

import enum
from dataclasses import dataclass, replace
from functools import cached_property

from tpmsim.standard import attribute_words, frames
from tpmsim.standard.frames import number
from tpmsim.standard.reading import Fields
from tpmsim.standard.sessions import digest

# The size of a counter and of a bit field.
NUMBER_BYTES = 8


class Attribute(enum.IntEnum):
    """TPMA_NV (Part 2, section 13.4), without the type."""

    PPWRITE = 1 << 0
    OWNERWRITE = 1 << 1
    AUTHWRITE = 1 << 2
    POLICYWRITE = 1 << 3
    POLICY_DELETE = 1 << 10
    WRITELOCKED = 1 << 11
    WRITEALL = 1 << 12
    WRITEDEFINE = 1 << 13
    WRITE_STCLEAR = 1 << 14
    GLOBALLOCK = 1 << 15
    PPREAD = 1 << 16
    OWNERREAD = 1 << 17
    AUTHREAD = 1 << 18
    POLICYREAD = 1 << 19
    NO_DA = 1 << 25
    ORDERLY = 1 << 26
    CLEAR_STCLEAR = 1 << 27
    READLOCKED = 1 << 28
    WRITTEN = 1 << 29
    PLATFORMCREATE = 1 << 30
    READ_STCLEAR = 1 << 31


class Type(enum.IntEnum):
    """The type of an index (TPM_NT), in bits 4 to 7 of its attributes."""

    ORDINARY = 0
    COUNTER = 1
    BITS = 2
    EXTEND = 4


TYPE_SHIFT, TYPE_MASK = 4, 0xF
NAMED = sum(Attribute) | TYPE_MASK << TYPE_SHIFT

WRITES = Attribute.PPWRITE | Attribute.OWNERWRITE | Attribute.AUTHWRITE | Attribute.POLICYWRITE
READS = Attribute.PPREAD | Attribute.OWNERREAD | Attribute.AUTHREAD | Attribute.POLICYREAD


def of_type(kind: int) -> int:
    """Returns attributes that contain only the type."""
    return kind << TYPE_SHIFT


TYPE_WORDS = {f"nt={it.name.lower()}": of_type(it) for it in Type}


def attributes_of(given: int | str) -> int:
    """Returns attributes, which may be words such as `ownerwrite|authread|nt=counter`."""
    if isinstance(given, str):
        return attribute_words.bits_of(Attribute, given, TYPE_WORDS)
    return given


@dataclass(frozen=True)
class Public:
    """TPMS_NV_PUBLIC. Commands on the index change its attributes, and with them its Name."""

    index: int
    name_algorithm: int
    attributes: int
    auth_policy: bytes = b""
    data_size: int = NUMBER_BYTES

    def has(self, attributes: int) -> bool:
        """Returns whether one of these attributes is set."""
        return bool(self.attributes & attributes)

    @property
    def is_free(self) -> bool:
        """Whether failed authorizations do not count as failed tries."""
        return self.has(Attribute.NO_DA)

    @property
    def kind(self) -> int:
        """The number of the index's type. A requested area may contain a number that `Type` does
        not define.
        """
        return self.attributes >> TYPE_SHIFT & TYPE_MASK

    @property
    def means(self) -> list[str]:
        """Returns the names of the attributes that allow reading and writing."""
        return [it.name for it in Attribute if it & (WRITES | READS) & self.attributes]

    @property
    def words(self) -> str:
        """The attributes in words, such as `ownerwrite|ownerread|nt=counter`."""
        types = [word for word, bits in TYPE_WORDS.items() if bits and bits == of_type(self.kind)]
        return "|".join([attribute_words.words_of(Attribute, self.attributes), *types])

    @property
    def text(self) -> bytes:
        """The encoding of the area. Raises BadValue if a field does not fit."""
        head = self.index, self.name_algorithm, self.attributes
        return frames.nv_public_area(*head, self.auth_policy, self.data_size)

    @cached_property
    def name(self) -> bytes:
        """The Name of the index."""
        return number(self.name_algorithm, 2) + digest(self.name_algorithm, self.text)

    @classmethod
    def read(cls, text: bytes) -> Public:
        """Decodes a public area; raises ValueError if bytes are left over, Short if some are
        missing.
        """
        fields = Fields(text)
        head = fields.number(4), fields.number(2), fields.number(4)
        public = cls(*head, fields.sized(), fields.number(2))
        if fields.data:
            raise ValueError("bytes are left after a public area")
        return public

    def but(self, added: int = 0, cleared: int = 0) -> Public:
        """Returns the area with some attributes set and others cleared."""
        return replace(self, attributes=self.attributes & ~cleared | added)
