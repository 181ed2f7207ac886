"""Images whose bodies are altered at random, and whose heads and digests are correct.

A seed always results in the same bodies, because only the stable functions of `random` are used.
"""

import pickle
import random

from tests.images import image_fields
from tpmsim.model.image import VERSION_2, framed
from tests.images.image_fields import Counted, Plain, Sized, image_of, text_of

# The maximum size of a piece that is removed, repeated or inserted, in bytes.
PIECE_BYTES = 40

# New values for sizes and counts, in addition to values near the right one.
SIZES = 0, 1, 16, 17, 32, 33, 34, 35, 128, 129, 2048, 2049
NUMBERS = *SIZES, 0x8000, 0xFFFF
BYTES = 0, 1, 2, 3, 0x80, 0x81, 0xFF


class Body:
    """The body of a device's image. Each read of `fields` returns a new copy of its fields."""

    def __init__(self, device):
        self.pickled = pickle.dumps(image_fields.body_of(device))

    @property
    def fields(self):
        return pickle.loads(self.pickled)


def within(fields):
    """Returns all lists of fields in `fields`, however deeply nested. Outer lists come before inner
    ones.
    """
    found = []
    add_lists(found, fields)
    return found


def add_lists(found, fields):
    found.append(fields)
    for it in fields:
        if isinstance(it, Sized):
            add_lists(found, it.fields)
        elif isinstance(it, Counted):
            for group in it.groups:
                add_lists(found, group)


class Bender(random.Random):
    """Alters a body. Some methods alter its bytes, others its fields."""

    def below(self, count):
        return int(self.random() * count)

    def one_of(self, values):
        return values[self.below(len(values))]

    def bent(self, body, version=VERSION_2):
        """Alters the bytes once, or the fields once or twice. Returns a description and the image."""
        fields = body.fields
        text_bends = self.change_byte, self.remove_piece, self.double_piece, self.insert_piece
        field_bends = (
            *(self.change_field, self.copy_field, self.change_number, self.resize),
            *(self.remove_field, self.double_field, self.exchange_fields),
        )
        bend = self.one_of(text_bends + 2 * field_bends)
        if bend in text_bends:
            return bend.__name__, framed(bend(text_of(fields)), version)
        names = []
        for it in (bend, self.one_of(field_bends))[: 1 + (self.random() < 0.25)]:
            it(fields)
            names.append(it.__name__)
        return " ".join(names), image_of(fields, version)

    # Methods that alter the bytes.

    def other_byte(self, byte):
        changed = (byte ^ 1 << self.below(8), self.one_of(BYTES), byte + 1 & 0xFF, self.below(256))
        return bytes([self.one_of(changed)])

    def change_byte(self, text):
        at = self.below(len(text))
        return text[:at] + self.other_byte(text[at]) + text[at + 1 :]

    def piece(self, text):
        size = self.one_of((1, 2, 4, 1 + self.below(PIECE_BYTES)))
        at = self.below(max(1, len(text) - size + 1))
        return at, at + size

    def remove_piece(self, text):
        start, end = self.piece(text)
        return text[:start] + text[end:]

    def double_piece(self, text):
        start, end = self.piece(text)
        return text[:end] + text[start:]

    def insert_piece(self, text):
        at, size = self.below(len(text) + 1), 1 + self.below(PIECE_BYTES)
        return text[:at] + bytes(self.below(256) for _ in range(size)) + text[at:]

    # Methods that alter the fields. If a changed field is in a sized buffer or in a counted list,
    # the size or the count is corrected.

    def all_of(self, fields, *kinds):
        return [it for inner in within(fields) for it in inner if isinstance(it, kinds)]

    def plain(self, fields):
        return self.one_of([it for it in self.all_of(fields, Plain) if it.text])

    def change_field(self, fields):
        field = self.plain(fields)
        field.text = self.change_byte(field.text)

    def copy_field(self, fields):
        """Copies the value of one field to another field of the same size."""
        field = self.plain(fields)
        same = [it for it in self.all_of(fields, Plain) if len(it.text) == len(field.text)]
        field.text = self.one_of(same).text

    def change_number(self, fields):
        """Changes a size or a count, so that it no longer fits its content."""
        field = self.one_of(self.all_of(fields, Sized, Counted))
        right = int.from_bytes(field.text[:2], "big")
        near = right + 1 & 0xFFFF, right - 1 & 0xFFFF, right ^ 0x100
        wrong = self.one_of((*near, self.one_of(NUMBERS)))
        if isinstance(field, Sized):
            field.size = wrong
        else:
            field.count = wrong

    def resize(self, fields):
        """Makes a field longer or shorter, and corrects the sizes of the buffers that contain it."""
        field = self.one_of(self.all_of(fields, Plain))
        near = len(field.text) + 1, max(len(field.text) - 1, 0)
        size = self.one_of((*near, *SIZES, self.below(near[0])))
        fill = self.one_of((b"\0", b"\1", b"a"))
        field.text = field.text[:size].ljust(size, fill)

    def groups(self, fields):
        """Returns a list of adjacent fields, or of the groups after a count."""
        lists = [it for it in within(fields) if it]
        lists += [it.groups for it in self.all_of(fields, Counted) if it.groups]
        return self.one_of(lists)

    def remove_field(self, fields):
        beside = self.groups(fields)
        del beside[self.below(len(beside))]

    def double_field(self, fields):
        beside = self.groups(fields)
        beside.insert(self.below(len(beside) + 1), self.one_of(beside))

    def exchange_fields(self, fields):
        beside = self.groups(fields)
        first, second = self.below(len(beside)), self.below(len(beside))
        beside[first], beside[second] = beside[second], beside[first]
