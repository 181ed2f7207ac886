"""Restores state texts with the library, and compares the results with the Python device:

    tools/python.sh snapshots.py LIBRARY [ONE_IN]

LIBRARY is the shared library. The test restores texts in which one byte is changed, with the right
digest and with a wrong one. With ONE_IN, only one in every ONE_IN bytes is changed. A text that is
refused must not change the device. If a text is accepted, the library must write the same text
again. If a text has no completing layer, the library adds a new layer to the written text.
"""

import collections
import ctypes
import sys
from collections.abc import Iterable, Iterator

from tpmsim.model import state_text
from tpmsim.model.image import DIGEST_AT_END, digested, HEAD_BYTES
from tpmsim.model.machine import Model
from tpmsim.model.state_text import Layer
from tests.common.shims import fail
from tests.images import state_bodies, worked_state

MOST_BYTES, RANDOM = 36_930, bytes(range(256))

# The fault for each result of tpmsim_restore.
FAULTS = {0: None}
FAULTS |= dict(enumerate(("Short", "Magic", "Version", "Length", "Digest", "Body"), 13))
FAULTS[21] = "Earlier"

# Ways to change a byte: flip its lowest bit; flip its highest bit; add one if the lowest bit is
# set, else subtract one. The last way flips at least the two lowest bits.
WAYS = (
    *(lambda byte: byte ^ 0x01, lambda byte: byte ^ 0x80),
    lambda byte: byte + (1 if byte & 1 else -1) & 0xFF,
)


class Library:
    """A device of the library."""

    def __init__(self, path: str) -> None:
        self.calls, self.holder = ctypes.CDLL(path), ctypes.c_void_p()
        self.calls.tpmsim_snapshot.restype = ctypes.c_size_t
        self.calls.tpmsim_restore.restype = ctypes.c_uint8
        self.buffer = ctypes.create_string_buffer(MOST_BYTES)
        if self.calls.tpmsim_manufacture(ctypes.byref(self.holder), RANDOM):
            raise MemoryError

    def snapshot(self) -> bytes:
        room = ctypes.c_size_t(MOST_BYTES)
        size = self.calls.tpmsim_snapshot(ctypes.byref(self.holder), self.buffer, room)
        return self.buffer.raw[:size]

    def fault_of(self, text: bytes) -> str | None:
        """Restores the device from a text. Returns the text's fault, or None if the device was
        restored.
        """
        size = ctypes.c_size_t(len(text))
        told = self.calls.tpmsim_restore(ctypes.byref(self.holder), text, size)
        return FAULTS.get(told, f"number {told}")


def with_layer(text: bytes) -> bytes:
    """Returns the state text of the same device with its completing layer, or with a new layer if
    the device has no layer.
    """
    device, layer = state_text.open_state(text)
    return state_text.state_text(device, layer or Layer())


def judge(library: Library, words: str, text: bytes) -> str:
    """Returns the fault of a text, or "restored". Checks that the library reports the same result,
    and that a refused text does not change the library's device.
    """
    wanted, before = state_text.fault_of(text), library.snapshot()
    given = library.fault_of(text)
    if given != wanted:
        fail(f"{words}: {wanted} is wanted, {given} is given")
    if library.snapshot() != (before if wanted else with_layer(text)):
        fail(f"{words}: another device is there")
    return wanted or "restored"


def kind(library: Library, words: str, texts: Iterable[bytes]) -> None:
    """For texts of one kind, prints how many have each fault."""
    counts = collections.Counter(judge(library, words, it) for it in texts)
    print(f"{words}: {', '.join(f'{count:,} {it}' for it, count in sorted(counts.items()))}")


def turned(text: bytes, one_in: int) -> Iterator[bytes]:
    """Yields copies of the text with one byte changed, in three ways. Only one in every `one_in`
    bytes is changed.
    """
    for at in range(0, len(text), one_in):
        for way in WAYS:
            yield text[:at] + bytes([way(text[at])]) + text[at + 1 :]


def kinds(library: Library, text: bytes, one_in: int) -> None:
    kind(library, "the text", [text])
    kind(library, "its proper prefixes", (text[:size] for size in range(len(text))))
    kind(library, "with bytes behind it", [text + bytes(count) for count in (1, 32, 65_536)])
    kind(library, "a byte turned", turned(text, one_in))
    bodies = turned(text[HEAD_BYTES:-DIGEST_AT_END], one_in)
    kind(library, "a byte turned, with the right digest", map(state_text.framed, bodies))


def bodies(library: Library) -> None:
    for words, bad, good in state_bodies.pairs():
        told = [judge(library, words, state_text.framed(it)) for it in (good, bad)]
        if told != ["restored", "Body"]:
            fail(f"{words}: {told[1]}, and the good one {told[0]}")
    print("each body with one thing wrong is refused, and the good one beside it restored")


def with_sequences(library: Library) -> None:
    """Restores a text with three sequence objects, and texts in which one byte of these objects is
    changed.
    """
    text = state_text.state_text(worked_state.device(), worked_state.layer_with_sequences())
    kind(library, "a text with sequences", [text])
    slots = len(worked_state.written(worked_state.SEQUENCES))
    body = text[HEAD_BYTES:-DIGEST_AT_END]
    front, back = body[:-slots], body[-slots:]
    bodies = (state_text.framed(front + it) for it in turned(back, 1))
    kind(library, "a byte of its sequences turned, with the right digest", bodies)


def main(path: str, one_in: str = "1") -> None:
    library = Library(path)
    kind(library, "a new device", [state_text.state_text(Model())])
    kind(library, "the largest", [state_text.state_text(*state_bodies.largest())])
    bodies(library)
    with_sequences(library)
    text = worked_state.text()
    earlier = digested(state_text.VERSION_1, text[HEAD_BYTES:-DIGEST_AT_END], state_text.MAGIC)
    kind(library, "a text of version 1", [earlier])
    kinds(library, text, int(one_in))


if __name__ == "__main__":
    main(*sys.argv[1:])
