"""Reads and alters volatile states:

    volatile_states.py read FILE
    volatile_states.py time FILE
    volatile_states.py bend FILE FOLDER
    volatile_states.py count FILE LEFT INTO

`read` prints the content of a state. `time` prints whether its time is within the last few minutes.
`bend` writes altered states to a folder, and prints the names of the files. `count` writes another
state, in which the update counter of the PCRs can count only LEFT more changes.
"""

import hashlib
import pathlib
import sys
import time
from typing import Iterator

from tpmsim.model import image, state_text
from tpmsim.model.pcrs import LAST_COUNTER
from tpmsim.standard import number

# The sizes of the time, of the whole tail, and of a digest. The tail follows the state text. It
# consists of the time, whether there was a dynamic launch (0 or 1), and a digest.
TIME_BYTES, TAIL_BYTES, DIGEST_BYTES = 8, 41, 32
HEAD_BYTES = 10

# The beginning of a volatile state of libtpms 0.9.2.
LIBTPMS = bytes.fromhex("0004456378890001000000000000000000010100400000080000010001000000")


def tail(text: bytes, when: bytes, launch: int) -> bytes:
    told = when + bytes([launch])
    return told + hashlib.sha256(text[-DIGEST_BYTES:] + told).digest()


def read(volatile: bytes) -> None:
    text, when = volatile[:-TAIL_BYTES], volatile[-TAIL_BYTES:][:TIME_BYTES]
    device, layer = state_text.open_state(text)
    for handle, held in device.sessions.items():
        print(f"session {handle:08x}, policy digest {held.policy.digest.hex()}")
    for handle, index in device.indices.items():
        print(f"index {handle:08x}: {index.data.decode()}")
    print("the layer is there" if layer else "there is no layer")
    launch = volatile[TIME_BYTES - TAIL_BYTES]
    print(f"{launch} launches")
    print("the tail is right" if volatile == text + tail(text, when, launch) else "another tail")


def tell_time(volatile: bytes) -> None:
    when = int.from_bytes(volatile[-TAIL_BYTES:][:TIME_BYTES], "big") / 1000
    print("the time is now" if abs(when - time.time()) < 600 else f"the time is {when}")


def bent(volatile: bytes) -> Iterator[tuple[str, bytes]]:
    text, when = volatile[:-TAIL_BYTES], volatile[-TAIL_BYTES:][:TIME_BYTES]
    launch = volatile[TIME_BYTES - TAIL_BYTES]
    yield "nothing", b""
    yield "short", volatile[: TAIL_BYTES + 41]
    yield "libtpms", LIBTPMS + bytes(2000)
    yield "image", image.digested(2, text[HEAD_BYTES:-DIGEST_BYTES]) + volatile[-TAIL_BYTES:]
    version_4 = image.digested(4, text[HEAD_BYTES:-DIGEST_BYTES], state_text.MAGIC)
    yield "version 4", version_4 + tail(version_4, when, launch)
    yield "the text alone", text
    yield "cut", volatile[:-1]
    yield "longer", volatile + b"\0"
    yield "another digest", text[:-1] + bytes([text[-1] ^ 1]) + volatile[-TAIL_BYTES:]
    body = state_text.framed(text[HEAD_BYTES:-DIGEST_BYTES] + b"\0")
    yield "longer body", body + tail(body, when, launch)
    yield "another time", text + number(7, TIME_BYTES) + volatile[TIME_BYTES - TAIL_BYTES :]
    yield "two launches", text + tail(text, when, 2)
    other = state_text.framed(text[HEAD_BYTES : -DIGEST_BYTES - 1] + b"\1")
    yield "the tail of another", other + volatile[-TAIL_BYTES:]


def counted(volatile: bytes, left: int) -> bytes:
    device, layer = state_text.open_state(volatile[:-TAIL_BYTES])
    device.update_counter = LAST_COUNTER - left
    when, launch = volatile[-TAIL_BYTES:][:TIME_BYTES], volatile[TIME_BYTES - TAIL_BYTES]
    text = state_text.state_text(device, layer)
    return text + tail(text, when, launch)


def main(deed: str, path: str, *words: str) -> None:
    volatile = pathlib.Path(path).read_bytes()
    if deed == "read":
        read(volatile)
    elif deed == "time":
        tell_time(volatile)
    elif deed == "count":
        left, into = words
        pathlib.Path(into).write_bytes(counted(volatile, int(left)))
    else:
        for name, state in bent(volatile):
            pathlib.Path(*words, name.replace(" ", "_")).write_bytes(state)
            print(name.replace(" ", "_"))


main(*sys.argv[1:])
