"""Splits the image of a device into fields: fields with a size, fields with a count, and plain
fields.

The fields can be changed, and then written again with their correct sizes and counts, or with wrong
ones.
"""

from dataclasses import dataclass

from tpmsim.model import image, persistent
from tpmsim.model.state import Saved
from tpmsim.standard import RH_LOCKOUT, number

# The size of each number in a SYMCIPHER's cipher or a KEYEDHASH's scheme, in bytes.
DETAIL_BYTES = 2


@dataclass
class Plain:
    """The bytes of a field that has neither a size nor a count."""

    text: bytes


@dataclass
class Sized:
    """Fields that are preceded by their total size."""

    fields: list
    size: int = None

    @property
    def text(self):
        text = text_of(self.fields)
        return number(len(text) if self.size is None else self.size, 2) + text


@dataclass
class Counted:
    """Groups of fields that are preceded by the number of groups."""

    groups: list
    count: int = None

    @property
    def text(self):
        count = len(self.groups) if self.count is None else self.count
        return number(count, 2) + b"".join(map(text_of, self.groups))


def text_of(fields):
    return b"".join(it.text for it in fields)


def image_of(fields, version=image.VERSION_2):
    """Returns the image with these fields, and with the right head and digest."""
    return image.framed(text_of(fields), version)


def buffer(text):
    return Sized([Plain(text)])


def numbers(*sizes_and_values):
    return [Plain(number(value, size)) for size, value in sizes_and_values]


def pieces(text, size):
    return [Plain(text[at : at + size]) for at in range(0, len(text), size)]


def body_of(device):
    """Returns the fields of the body of a device's image. The last two fields are the lists of
    objects and indices, which `objects_of` and `indices_of` return.
    """
    fields = []
    for hierarchy in image.HIERARCHIES:
        secrets = device.seeds[hierarchy], device.proofs[hierarchy]
        fields += [buffer(device.auth_value(hierarchy)), *map(Plain, secrets)]
    fields += [buffer(device.auth_value(RH_LOCKOUT)), *numbers((1, device.disable_clear))]
    fields += pieces(image.lockout_text(device.lockout), 4)
    fields += pieces(image.counts_text(device), 4) + numbers((1, device.saved))
    if device.saved == Saved.STATE:
        banks = (device.saved_banks[bank] for bank in image.BANKS)
        fields += [Plain(value) for bank in banks for value in bank]
    held = sorted(it for it in device.objects if persistent.is_persistent(it))
    fields.append(Counted([object_fields(it, device.objects[it]) for it in held]))
    fields.append(Counted([index_fields(it) for _, it in sorted(device.indices.items())]))
    assert image_of(fields) == image.image(device)
    return fields


def objects_of(fields):
    return fields[-2]


def indices_of(fields):
    return fields[-1]


def object_fields(handle, kept):
    public, sensitive = kept.public, kept.sensitive
    head = numbers((2, public.kind), (2, public.name_algorithm), (4, public.attributes))
    policy, unique = buffer(public.auth_policy), buffer(public.unique)
    details = public.text[len(text_of([*head, policy])) : -len(unique.text)]
    buffers = sensitive.auth_value, sensitive.seed_value, sensitive.data
    return [
        *numbers((4, handle), (4, kept.hierarchy)),
        buffer(kept.qualified_name),
        Sized([*head, policy, *pieces(details, DETAIL_BYTES), unique]),
        Sized([*numbers((2, sensitive.kind)), *map(buffer, buffers)]),
    ]


def index_fields(index):
    public = index.public
    head = numbers((4, public.index), (2, public.name_algorithm), (4, public.attributes))
    area = [*head, buffer(public.auth_policy), *numbers((2, public.data_size))]
    return [Sized(area), buffer(index.auth_value), buffer(index.data)]
