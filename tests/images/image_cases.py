"""Images, and texts that are almost images, with descriptions. Some contain only NV indices. Some
are within the limits of their version, and some exceed these limits.
"""

from dataclasses import dataclass

from tpmsim.caller import area
from tpmsim.model import nv_commands
from tpmsim.model.image import BODY_AT, DIGEST_AT_END, HEAD_BYTES, VERSION_1, VERSION_2, digested
from tpmsim.model.image import image
from tpmsim.model.machine import Model
from tpmsim.standard import frames


@dataclass(frozen=True)
class Case:
    """A text with its description, and whether a device can be opened from it."""

    words: str
    text: bytes
    is_good: bool


def plural(count):
    return "a byte" if count == 1 else f"{count:,} bytes"


def pair(bad, bad_text, good, good_text):
    return [Case(bad, bad_text, False), Case(good, good_text, True)]


def pairs(of, bad, good):
    """Returns the images that `of` makes from a bad and from a good value. In `bad` and `good`, a
    description precedes the value.
    """
    return pair(bad[0], of(*bad[1:]), good[0], of(*good[1:]))


def with_indices(*indices, version=VERSION_2):
    """Returns the image of a device with these indices."""
    device = Model()
    device.indices = {it.public.index: it for it in indices}
    return image(device, version)


def areas(*sizes, version=VERSION_2):
    """Returns the image of a device with indices of these sizes."""
    numbered = enumerate(sizes, 0x0100_0000)
    held = (nv_commands.Index(area(index, size=size), b"") for index, size in numbered)
    return with_indices(*held, version=version)


# The two versions of images.


def with_other_limits():
    """Yields the image of a new device with each bit of its limits changed in turn."""
    body = image(Model())[BODY_AT:-DIGEST_AT_END]
    limits, size = int.from_bytes(VERSION_2.limits, "big"), len(VERSION_2.limits)
    for bit in range(8 * size):
        yield f"bit {bit}", digested(2, frames.number(limits ^ 1 << bit, size) + body)


def without_state():
    """Yields texts of version 2 with 42 to 73 bytes: a head, at most 31 bytes, and a digest."""
    new = image(Model())
    for size in range(42, 74):
        yield f"of {size} bytes", digested(2, new[HEAD_BYTES : size - DIGEST_AT_END])


def version_cases():
    """Yields images of version 2 with wrong or missing limits, an image of version 1 with limits,
    and images near the limits of version 1.
    """
    new = image(Model())
    old, body = image(Model(), VERSION_1), new[BODY_AT:-DIGEST_AT_END]
    for indices, space in ((0, 0), (32, 8192), (63, 16_384), (65, 16_384), (64, 16_383)):
        limits = frames.number(indices, 2) + frames.number(space, 4)
        words = f"version 2 with the limits {indices:,} and {space:,}"
        yield from pair(words, digested(2, limits + body), "64 and 16,384", new)
    yield from pair("version 2 without limits", digested(2, body), "with them", new)
    yield from pair("version 1 with limits", digested(1, VERSION_2.limits + body), "without", old)
    most = [2048] * 3 + [2047]
    sizes_of = ([0] * 33, [0] * 32), ([0] * 64, [0] * 32), ([*most, 2], [*most, 1])
    for bad, good in (*sizes_of, ([2048] * 8, [2048] * 4)):
        for sizes, version in ((bad, VERSION_1), (bad, VERSION_2), (good, VERSION_1)):
            held = f"{len(sizes)} indices of {plural(sum(sizes))}"
            is_good = (sizes, version) != (bad, VERSION_1)
            text = areas(*sizes, version=version)
            yield Case(f"{held} in version {version.number}", text, is_good)
