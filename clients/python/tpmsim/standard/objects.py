"""The public areas of objects (TPM 2.0 Library, Part 2, sections 8.3 and 12.2)."""

import enum
from dataclasses import dataclass
from functools import cached_property

from tpmsim.standard import attribute_words, frames
from tpmsim.standard.frames import ALG_NULL, KEYEDHASH, number, SYMCIPHER
from tpmsim.standard.reading import Fields
from tpmsim.standard.sessions import digest


class Attribute(enum.IntEnum):
    """TPMA_OBJECT (Part 2, section 8.3)."""

    FIXED_TPM = 1 << 1
    ST_CLEAR = 1 << 2
    FIXED_PARENT = 1 << 4
    SENSITIVE_DATA_ORIGIN = 1 << 5
    USER_WITH_AUTH = 1 << 6
    ADMIN_WITH_POLICY = 1 << 7
    NO_DA = 1 << 10
    ENCRYPTED_DUPLICATION = 1 << 11
    RESTRICTED = 1 << 16
    DECRYPT = 1 << 17
    SIGN = 1 << 18


NAMED = sum(Attribute)


def attributes_of(given: int | str) -> int:
    """Returns attributes, which may be words such as `fixedtpm|fixedparent|userwithauth`."""
    return attribute_words.bits_of(Attribute, given) if isinstance(given, str) else given


@dataclass(frozen=True)
class Sensitive:
    """TPMS_SENSITIVE_CREATE: the authorization value of a new object, and its key or sealed
    data.
    """

    user_auth: bytes = b""
    data: bytes = b""

    @property
    def text(self) -> bytes:
        """The encoding of the structure. Raises BadValue if a field does not fit."""
        user_auth = frames.sized_field("user_auth", self.user_auth)
        return user_auth + frames.sized_field("data", self.data)


@dataclass(frozen=True)
class Public:
    """TPMT_PUBLIC. The scheme of a KEYEDHASH is a hash algorithm or NULL; the cipher of a SYMCIPHER
    is AES-128 CFB.
    """

    kind: int
    name_algorithm: int
    attributes: int
    auth_policy: bytes = b""
    scheme: int = ALG_NULL
    unique: bytes = b""

    def has(self, attributes: int) -> bool:
        """Returns whether one of these attributes is set."""
        return bool(self.attributes & attributes)

    @property
    def is_free(self) -> bool:
        """Whether failed authorizations do not count as failed tries."""
        return self.has(Attribute.NO_DA)

    @property
    def words(self) -> str:
        """The attributes in words, such as `fixedtpm|userwithauth`."""
        return attribute_words.words_of(Attribute, self.attributes)

    @property
    def text(self) -> bytes:
        """The encoding of the area. Raises BadValue if a field does not fit."""
        is_keyed_hash = self.kind == KEYEDHASH
        details = frames.scheme(self.scheme) if is_keyed_hash else frames.symmetric(aes=True)
        head = self.kind, self.name_algorithm, self.attributes
        return frames.public_area(*head, self.auth_policy, details, self.unique)

    @cached_property
    def name(self) -> bytes:
        """The Name of the object."""
        return number(self.name_algorithm, 2) + digest(self.name_algorithm, self.text)

    @classmethod
    def read(cls, text: bytes) -> "Public":
        """Decodes a public area; raises ValueError if bytes are left over, Short if some are
        missing.
        """
        fields = Fields(text)
        kind, name_algorithm, attributes = fields.number(2), fields.number(2), fields.number(4)
        auth_policy, scheme = fields.sized(), ALG_NULL
        if kind == SYMCIPHER:
            fields.take(len(frames.symmetric(aes=True)))
        elif fields.number(2) != ALG_NULL:
            scheme = fields.number(2)
        public = cls(kind, name_algorithm, attributes, auth_policy, scheme, fields.sized())
        if fields.data:
            raise ValueError("bytes are left after a public area")
        return public

    @property
    def is_parent(self) -> bool:
        """Whether this is a storage parent: a restricted decryption key."""
        wanted = Attribute.RESTRICTED | Attribute.DECRYPT
        asked = wanted | Attribute.SIGN
        return self.kind == SYMCIPHER and self.attributes & asked == wanted
