"""Bodies of images with one error each, paired with the most similar good body; and good bodies
with values that are not checked.
"""

import copy
from dataclasses import replace
from functools import partial

from tpmsim.caller import BY_OWNER, HERE, area, bits, counter, extended, hmac_key, sealed
from tpmsim.caller import storage_key
from tpmsim.model import nv_commands
from tpmsim.model.image import BODY_AT, DIGEST_AT_END, VERSION_2, framed, image
from tpmsim.model.machine import Model
from tpmsim.model.object_rules import DATA_BYTES, NAME_BYTES, Object, Sensitive
from tpmsim.model.persistent import PERSISTENT_OBJECTS
from tpmsim.model.state import SAVED_PCRS, Saved
from tpmsim.standard import RH_ENDORSEMENT, RH_LOCKOUT, RH_NULL, RH_OWNER, RH_PLATFORM, SHA1
from tpmsim.standard import frames
from tpmsim.standard.nv import Attribute, of_type
from tpmsim.standard.objects import Attribute as ObjectAttribute
from tests.general import full_device
from tests.images import image_fields
from tests.images.image_cases import Case, areas, pair, pairs, plural, version_cases, with_indices
from tests.images.image_fields import image_of, indices_of, objects_of

WRITTEN = BY_OWNER | Attribute.WRITTEN
FIRST = 0x8100_0000
WITH_VALUES = RH_OWNER, RH_ENDORSEMENT, RH_PLATFORM, RH_LOCKOUT

# The offsets of three bytes in a new device's image. Only a few values are valid for these bytes.
# The counts of objects and indices follow the last of these bytes.
DISABLE_CLEAR, CLOSED, SAVED = 16 + 4 * 66 + 2, 16 + 4 * 66 + 19, 361 - DIGEST_AT_END - 5
SAVED_BANKS = SAVED_PCRS * (20 + 32)

# A full device is built only once.
FULL = full_device.tpm.script.device


def largest(version=VERSION_2):
    """Returns a device whose fields are all as large as an image of this version allows."""
    device, value = Model(), b"v" * 32
    device.auth_values = {handle: value for handle in WITH_VALUES}
    device.saved = Saved.STATE
    device.saved_banks = {bank: values[:SAVED_PCRS] for bank, values in device.banks.items()}
    public = storage_key(auth_policy=b"p" * 32, unique=b"u" * 32)
    sensitive = Sensitive(public.kind, value, b"s" * 32, b"d" * DATA_BYTES)
    for handle in range(FIRST, FIRST + PERSISTENT_OBJECTS):
        device.objects[handle] = Object(public, sensitive, RH_OWNER, b"n" * NAME_BYTES)
    size = version.all_bytes // version.indices
    for index in range(0x0100_0000, 0x0100_0000 + version.indices):
        public = area(index, WRITTEN, size=size, auth_policy=b"p" * 32)
        device.indices[index] = nv_commands.Index(public, value, bytes(range(size)))
    return device


# Images of small devices.


def one_index(public, data=b"", auth_value=b"a"):
    return with_indices(nv_commands.Index(public, auth_value, data))


def one_object(public=None, handle=FIRST, hierarchy=RH_OWNER, name=b"", **sensitive):
    """Returns the image of a device with one object. The arguments replace values of its fields."""
    public = hmac_key() if public is None else public
    given = dict(kind=public.kind, auth_value=b"", seed_value=b"", data=b"key")
    kept = Object(public, Sensitive(**(given | sensitive)), hierarchy, name)
    return image_of(
        [
            *image_fields.body_of(Model())[:-2],
            image_fields.Counted([image_fields.object_fields(handle, kept)]),
            image_fields.Counted([]),
        ]
    )


def with_auth_value(handle, value):
    device = Model()
    device.auth_values[handle] = value
    return image(device)


def with_byte(at, value):
    """Returns the image of a new device with another value in the byte at offset `at`."""
    text = image(Model())
    return framed(text[BODY_AT:at] + bytes([value]) + text[at + 1 : -DIGEST_AT_END])


def with_saved(value, banks=b""):
    body = image(Model())[BODY_AT:-DIGEST_AT_END]
    at = SAVED - BODY_AT
    return framed(body[:at] + bytes([value]) + banks + body[at + 1 :])


# The cases.


def of_bytes(of, words, *rows):
    """Yields images in which a field has a wrong value, each with an image in which it has a right
    value. The descriptions state the lengths of the values.
    """
    for bad, good in rows:
        ends = ", the last a zero" if bad.endswith(b"\0") else ""
        wrong = f"{words} of {plural(len(bad))}{ends}", bad
        yield from pairs(of, wrong, (f"of {plural(len(good))}", good))


def of_handles(of, words, *rows):
    for bad, good in rows:
        yield from pairs(of, (f"{words} {bad:08x}", bad), (f"{good:08x}", good))


def hierarchy_cases():
    names = "the owner", "endorsement", "the platform", "lockout"
    for handle, name in zip(WITH_VALUES, names):
        of, words = partial(with_auth_value, handle), f"of {name} an authorization value"
        ends = (b"\0", b""), (b"ab\0", b"ab"), (b"a" * 31 + b"\0", b"a" * 32)
        yield from of_bytes(of, words, *ends)
        yield from pairs(of, (f"{words} of 33 bytes", b"a" * 33), ("of 32", b"a" * 32))
    bad = "of TPM_RH_NULL an authorization value of a byte", b"a"
    yield from pairs(partial(with_auth_value, RH_NULL), bad, ("of no byte", b""))


def flag_cases():
    for at, words in ((DISABLE_CLEAR, "disableClear"), (CLOSED, "closed")):
        for value in (2, 0xFF):
            yield from pairs(with_byte, (f"{words} is {value}", at, value), ("1", at, 1))
    banks = bytes(SAVED_BANKS)
    for bad, good in (
        (("what was saved is 3", 3), ("1", 1)),
        (("what was saved is 3, with PCRs", 3, banks), ("2", 2, banks)),
        (("a saved state without PCRs", 2), ("with them", 2, banks)),
        (("a saved state with a byte too few", 2, banks[1:]), ("with all", 2, banks)),
        (("PCRs without a saved state", 0, banks), ("none", 0)),
    ):
        yield from pairs(with_saved, bad, good)


def changed_lists():
    """Yields images of a full device with an altered list of objects or indices, each with the good
    image.
    """
    for words, find in (("objects", objects_of), ("indices", indices_of)):
        for at in (0, 7, len(find(image_fields.body_of(FULL)).groups) - 2):
            fields = image_fields.body_of(FULL)
            groups = find(fields).groups
            groups[at], groups[at + 1] = groups[at + 1], groups[at]
            yield fields, f"{words} that do not ascend, at {at}", "that do"
        fields = image_fields.body_of(FULL)
        groups = find(fields).groups
        groups[:2] = groups[:1] * 2
        yield fields, f"two {words} of one handle", "of two"
        for added in (-1, 1):
            fields = image_fields.body_of(FULL)
            count = find(fields).count = len(groups) + added
            yield fields, f"{len(groups)} {words} with the count {count}", "right"


def list_cases():
    good = image(FULL)
    for fields, words, of_good in changed_lists():
        yield from pair(words, image_of(fields), of_good, good)
    device = copy.deepcopy(FULL)
    device.indices[0x0100_00FF] = nv_commands.Index(area(0x0100_00FF, size=0), b"")
    yield from pair("65 indices", image(device), "64", good)
    device = copy.deepcopy(FULL)
    device.objects[0x8100_0001] = device.objects[FIRST]
    yield from pair("17 objects", image(device), "16", good)
    most = [2048] * 7 + [2047]
    yield from pairs(areas, ("16,385 bytes of indices", *most, 2), ("16,384", *most, 1))
    yield from pairs(areas, ("16,392 bytes in 64", *[256] * 63, 264), ("16,384", *[256] * 64))


def object_cases():
    handles = (0x8000_0001, FIRST), (0x80FF_FFFF, FIRST), (0x8200_0000, 0x81FF_FFFF)
    yield from of_handles(lambda it: one_object(handle=it), "an object of the handle", *handles)
    hierarchies = (
        *((RH_NULL, RH_OWNER), (RH_LOCKOUT, RH_ENDORSEMENT), (0x4000_000D, RH_PLATFORM)),
        *((0, RH_OWNER), (FIRST, RH_OWNER)),
    )
    of = lambda it: one_object(hierarchy=it)
    yield from of_handles(of, "an object of the hierarchy", *hierarchies)
    for public, other in ((hmac_key(), frames.SYMCIPHER), (storage_key(), frames.KEYEDHASH)):
        words = f"an object of type {public.kind:04x}, and its sensitive area of {other:04x}"
        bad, good = one_object(public, kind=other), one_object(public)
        yield from pair(words, bad, "of the same", good)
    for name, bad, good in (
        ("auth_value", b"a\0", b"a"),
        ("auth_value", b"a" * 33, b"a" * 32),
        ("seed_value", b"a" * 33, b"a" * 32),
        ("data", b"a" * 129, b"a" * 128),
    ):
        words = f"an object's {name.replace('_', ' ')}"
        yield from of_bytes(lambda it: one_object(**{name: it}), words, (bad, good))
    for of, words in (
        (lambda size: one_object(name=b"n" * size), "qualified name of 35 bytes"),
        (lambda size: one_object(hmac_key(auth_policy=b"p" * (size - 2))), "policy of 33 bytes"),
        (lambda size: one_object(hmac_key(unique=b"u" * (size - 2))), "unique buffer of 33 bytes"),
    ):
        yield from pairs(of, (f"an object's {words}", 35), ("of one less", 34))
    yield from public_cases()


def public_cases():
    """Yields images with public areas that cannot be parsed, each with a good image."""
    key = hmac_key()
    for words, change in (
        ("a reserved bit", dict(attributes=key.attributes | 1)),
        ("the highest bit", dict(attributes=key.attributes | 1 << 31)),
        ("type 0001", dict(kind=0x0001)),
        ("the hash algorithm 000c", dict(name_algorithm=0x000C)),
        ("the hash algorithm NULL", dict(name_algorithm=frames.ALG_NULL)),
        ("a scheme of the hash algorithm 000c", dict(scheme=0x000C)),
    ):
        bad = f"an object's public area with {words}", replace(key, **change)
        yield from pairs(one_object, bad, ("without", key))
    for words, at, texts in (
        ("the cipher NULL", 0, (frames.number(frames.ALG_NULL, 2),)),
        ("keys of 256 bits", 1, (frames.number(256, 2),)),
        ("the mode CTR", 2, (frames.number(0x0040, 2),)),
        ("TPM_ALG_XOR and SHA-256", 0, (frames.symmetric(xor=frames.SHA256), b"", b"")),
    ):
        fields = image_fields.body_of(Model())
        kept = Object(storage_key(), Sensitive(frames.SYMCIPHER, b"", b"", b""), RH_OWNER, b"")
        objects_of(fields).groups.append(image_fields.object_fields(FIRST, kept))
        good = image_of(fields)
        _, _, _, public, _ = objects_of(fields).groups[0]
        for behind, text in enumerate(texts):
            public.fields[4 + at + behind].text = text
        yield from pair(f"a cipher key with {words}", image_of(fields), "AES-128 in CFB", good)


def data_cases():
    """Yields indices whose data, or the size of their data, does not fit their public area."""
    written = area(attributes=WRITTEN)
    bad = "8 bytes of data of an index without WRITTEN", area(), bytes(8)
    yield from pairs(one_index, bad, ("with it", written, bytes(8)))
    for size in (0, 7, 9):
        bad = f"{size} bytes of data of an index of 8", written, bytes(size)
        yield from pairs(one_index, bad, ("8", written, bytes(8)))
    for words, bad, good in (
        ("a counter of 7 bytes", counter(size=7), counter()),
        ("a counter of 9 bytes", counter(size=9), counter()),
        ("bits of 7 bytes", bits(size=7), bits()),
        ("an extended index of 20 bytes by SHA-256", extended(size=20), extended()),
        ("one of 32 by SHA-1", extended(algorithm=SHA1, size=32), extended(algorithm=SHA1)),
        ("an ordinary one of 2,049", area(size=2049), area(size=2048)),
    ):
        yield from pairs(one_index, (words, bad), (f"of {good.data_size:,}", good))


def index_cases():
    yield from data_cases()
    for kind in (3, 5, 8, 15):
        bad = f"an index of type {kind}", area(attributes=BY_OWNER | of_type(kind))
        yield from pairs(one_index, bad, ("0", area()))
    for bit in (8, 9, 20, 21, 22, 23, 24):
        bad = f"an index with the bit {bit}", area(attributes=BY_OWNER | 1 << bit)
        yield from pairs(one_index, bad, ("without", area()))
    of, handles = lambda it: one_index(area(it)), (
        (0x00FF_FFFF, 0x0100_0000),
        (0x0200_0000, 0x01FF_FFFF),
    )
    yield from of_handles(of, "an index of the handle", *handles)
    bad = "an index by the hash algorithm 000c", replace(area(), name_algorithm=0x000C)
    yield from pairs(one_index, bad, ("000b", area()))
    of, words = partial(one_index, area(), b""), "of an index an authorization value"
    yield from of_bytes(of, words, (b"a\0", b"a"), (b"a" * 33, b"a" * 32))
    of = lambda size: one_index(replace(area(), auth_policy=b"p" * size))
    yield from pairs(of, ("of an index a policy of 33 bytes", 33), ("of 32", 32))


def size_cases():
    """Yields sized buffers that are longer than their structure, and texts that are too long or too
    short.
    """
    for words, find, at in (
        ("an object's public area", objects_of, 3),
        ("an object's sensitive area", objects_of, 4),
        ("an index's public area", indices_of, 0),
    ):
        fields = image_fields.body_of(FULL)
        good = image_of(fields)
        area_fields = find(fields).groups[0][at].fields
        area_fields.append(image_fields.Plain(b"\0"))
        yield from pair(f"{words} and a byte behind it", image_of(fields), "none", good)
        area_fields.pop()
        last = area_fields.pop()
        area_fields.append(image_fields.Plain(last.text[:-1]))
        yield from pair(f"{words} without its last byte", image_of(fields), "with it", good)
    new = image(Model())
    body = new[BODY_AT:-DIGEST_AT_END]
    yield from pair("a byte behind the indices", framed(body + b"\0"), "none", new)
    yield from pair("a byte too few", framed(body[:-1]), "none", new)
    yield from pair("no body", framed(b""), "one", new)
    most = image(largest())
    assert len(most) == 28_361
    for count, words in ((1, "a byte"), (1 << 20, "a mebibyte")):
        longer = framed(most[BODY_AT:-DIGEST_AT_END] + bytes(count))
        yield from pair(f"{words} behind the indices of the largest image", longer, "none", most)


def not_looked_at():
    """Yields good images with values that TPM2_NV_DefineSpace or a template could not set."""
    locked = Attribute.GLOBALLOCK | Attribute.ORDERLY | Attribute.POLICY_DELETE
    device = Model()
    index = nv_commands.Index(counter(attributes=WRITTEN), b"", bytes([255] * 8))
    device.indices[0x0100_0001] = index
    by_sha1, key_by_sha1 = area(algorithm=SHA1), hmac_key(SHA1)
    st_clear = HERE | ObjectAttribute.ST_CLEAR
    every = area(attributes=sum(Attribute) & ~Attribute.WRITTEN)
    for words, text in (
        ("an index's policy of 5 bytes", one_index(replace(area(), auth_policy=b"12345"))),
        ("an index's value longer than its digest", one_index(by_sha1, b"", b"a" * 32)),
        ("an index that nobody reads or writes", one_index(area(attributes=0))),
        ("an index with all attributes but WRITTEN", one_index(every)),
        ("an index that no definition takes", one_index(area(attributes=BY_OWNER | locked))),
        ("an object's policy of 5 bytes", one_object(hmac_key(auth_policy=b"12345"))),
        ("an object's value longer than a digest", one_object(key_by_sha1, auth_value=b"a" * 32)),
        ("an object without attributes", one_object(replace(hmac_key(), attributes=0))),
        ("an object with all attributes", one_object(sealed(attributes=sum(ObjectAttribute)))),
        ("an object with stClear", one_object(hmac_key(attributes=st_clear))),
        ("an object without a qualified name", one_object(name=b"")),
        ("a cipher key of no byte", one_object(storage_key(), data=b"")),
        ("a cipher key of 17 bytes", one_object(storage_key(), data=bytes(17))),
        ("the owner's object with a handle of the platform's", one_object(handle=0x81FF_FFFF)),
        ("a counter above the largest value", image(device)),
    ):
        yield Case(words, text, True)


def cases():
    """Yields all cases. Each bad image is followed by the most similar good image."""
    yield from version_cases()
    yield from hierarchy_cases()
    yield from flag_cases()
    yield from list_cases()
    yield from object_cases()
    yield from index_cases()
    yield from size_cases()
    yield from not_looked_at()
