"""Templates of objects, and public areas of NV indices, for most tests. Attributes may be written
as words, such as `ownerread|authread`, and algorithms as `sha1` or `sha256`.
"""

from dataclasses import replace
from typing import Any

from tpmsim.standard import digest_bytes, given, KEYEDHASH, nv, objects, SHA256, SYMCIPHER
from tpmsim.standard.nv import Type
from tpmsim.standard.objects import Attribute, Public

# Attributes of most objects: bound to this device and to their parent, usable with their
# authorization value, and not protected against guessing.
HERE = Attribute.FIXED_TPM | Attribute.FIXED_PARENT
OPEN = Attribute.USER_WITH_AUTH | Attribute.NO_DA
STORES = Attribute.RESTRICTED | Attribute.DECRYPT

# Attributes that determine who may write and read an index, and the handle of the first index.
BY_OWNER = nv.Attribute.OWNERWRITE | nv.Attribute.OWNERREAD
BY_PLATFORM = nv.Attribute.PPWRITE | nv.Attribute.PPREAD
BY_VALUE = nv.Attribute.AUTHWRITE | nv.Attribute.AUTHREAD
BY_POLICY = nv.Attribute.POLICYWRITE | nv.Attribute.POLICYREAD
FIRST = 0x0100_0001

# A set of attributes or an algorithm, as a number or in words.
Worded = int | str


def template(kind: int, algorithm: Worded, attributes: Worded, **more: Any) -> Public:
    """Returns the public area of an object of any kind."""
    return Public(kind, given.algorithm(algorithm), objects.attributes_of(attributes), **more)


def storage_key(
    algorithm: Worded = SHA256, attributes: Worded = HERE | OPEN | STORES, **more: Any
) -> Public:
    """Returns the template of a storage parent, whose key the TPM generates."""
    origin = Attribute.SENSITIVE_DATA_ORIGIN
    return template(SYMCIPHER, algorithm, objects.attributes_of(attributes) | origin, **more)


def sealed(algorithm: Worded = SHA256, attributes: Worded = HERE | OPEN, **more: Any) -> Public:
    """Returns the template of sealed data. The data are a separate argument of the command."""
    return template(KEYEDHASH, algorithm, attributes, **more)


def hmac_key(
    algorithm: Worded = SHA256,
    attributes: Worded = HERE | OPEN,
    scheme: Worded = SHA256,
    **more: Any,
) -> Public:
    """Returns the template of an HMAC key. The key is a separate argument of the command."""
    signs, hashing = objects.attributes_of(attributes) | Attribute.SIGN, given.algorithm(scheme)
    return template(KEYEDHASH, algorithm, signs, scheme=hashing, **more)


def area(
    index: int = FIRST,
    attributes: Worded = BY_OWNER | BY_VALUE,
    size: int | None = None,
    kind: Type = Type.ORDINARY,
    algorithm: Worded = SHA256,
    auth_policy: bytes = b"",
) -> nv.Public:
    """Returns the public area of an index. By default the index is eight bytes long, or as long as
    a digest if it is an extend index.
    """
    wanted = nv.attributes_of(attributes) | nv.of_type(kind)
    public = nv.Public(index, given.algorithm(algorithm), wanted, auth_policy)
    if size is None:
        is_extend = public.kind == Type.EXTEND
        size = digest_bytes(public.name_algorithm) if is_extend else nv.NUMBER_BYTES
    return replace(public, data_size=size)


def counter(index: int = FIRST, attributes: Worded = BY_OWNER | BY_VALUE, **more: Any) -> nv.Public:
    """Returns the public area of a counter index; `more` is passed to `area`."""
    return area(index, attributes, kind=Type.COUNTER, **more)


def bits(index: int = FIRST, attributes: Worded = BY_OWNER | BY_VALUE, **more: Any) -> nv.Public:
    """Returns the public area of a bit field; `more` is passed to `area`."""
    return area(index, attributes, kind=Type.BITS, **more)


def extended(
    index: int = FIRST, attributes: Worded = BY_OWNER | BY_VALUE, **more: Any
) -> nv.Public:
    """Returns the public area of an extend index, as long as a digest; `more` is passed to `area`."""
    return area(index, attributes, kind=Type.EXTEND, **more)
