"""Alters scripts and images at random. In an altered script, some commands have random changes,
some lines are missing or swapped, and sometimes a byte of the text is changed.
"""

from tpmsim.model.image import BODY_AT, DIGEST_AT_END, HEAD_BYTES
from tpmsim.standard import digest, frames, NUMBERED
from tests.common.expected import buffer_of
from tests.common.script import line

# The offsets of the length field in an image, and of the first byte after the seeds and proofs.
LENGTH_AT, BEHIND_SEEDS = 6, BODY_AT + 4 * 66

# The probability that a line is altered, and the probability that a byte of the text is changed.
SELDOM, OFTEN = 0.06, 0.3

SIZES = 0, 1, 2, 8, 9, 16, 20, 32, 33, 64, 128, 1024, 1025, 4096, 0xFFFF
HANDLES = (
    *(0, 10, 17, 23, 24, frames.RH_OWNER, frames.RH_NULL, frames.RS_PW, frames.RH_LOCKOUT),
    *(frames.RH_ENDORSEMENT, frames.RH_PLATFORM, 0x01000000, 0x01000001, 0x02000000),
    *(0x03000000, 0x03000001, 0x80000000, 0x80000001, 0x81000000, 0x81800000, 0xFFFFFFFF),
)


def put(buffer, at, data):
    """Returns the buffer with `data` written at the offset `at`."""
    return buffer[:at] + data + buffer[at + len(data) :]


def sized_right(buffer):
    return put(buffer, 2, frames.number(len(buffer), 4)) if len(buffer) >= 6 else buffer


# Functions that alter bytes. Their first argument is a source of random numbers.


def bit(random, buffer):
    at = random.randrange(len(buffer))
    return put(buffer, at, bytes([buffer[at] ^ 1 << random.randrange(8)]))


def byte(random, buffer):
    at = random.randrange(len(buffer))
    values = 0, 0xFF, buffer[at] - 1 & 0xFF, buffer[at] + 1 & 0xFF, random.randrange(256)
    return put(buffer, at, bytes([random.choice(values)]))


def size_within(random, buffer):
    return put(buffer, random.randrange(len(buffer)), frames.number(random.choice(SIZES), 2))


def less(random, buffer):
    at = random.randrange(len(buffer))
    return buffer[:at] + buffer[at + random.choice((1, 1, 2, 4, 32)) :]


def more(random, buffer):
    at = random.randrange(len(buffer) + 1)
    return buffer[:at] + random.randbytes(random.choice((1, 1, 2, 4, 32))) + buffer[at:]


def doubled(random, buffer):
    """Returns the buffer with one part repeated. The part may be as long as a handle or an entry."""
    at, size = random.randrange(len(buffer)), random.choice((4, 9, 9, 20))
    return buffer[: at + size] + buffer[at:]


# Functions that alter the bytes of a command.


def handle_within(random, buffer):
    handle = frames.number(random.choice(HANDLES), 4)
    return put(buffer, random.choice((10, 14, random.randrange(len(buffer)))), handle)


def code(random, buffer):
    return put(buffer, 6, frames.number(random.choice(list(NUMBERED)), 4))


def tag(random, buffer):
    return put(buffer, 0, frames.number(random.choice((0x8001, 0x8002, 0x8003, 0x00C4)), 2))


def with_right_size(bend):
    return lambda random, buffer: sized_right(bend(random, buffer))


def wrong_size(random, buffer):
    sizes = len(buffer) - 1, len(buffer) + 1, 0, 9, 4097
    return put(buffer, 2, frames.number(max(0, random.choice(sizes)), 4))


BENDS = (
    *(bit, byte, byte, size_within, handle_within, code, tag, wrong_size),
    *(with_right_size(less), with_right_size(more), with_right_size(doubled)),
)
IMAGE_BENDS = bit, byte, byte, size_within, less, more, doubled


def bent_buffer(random, buffer):
    for _ in range(random.choice((1, 1, 1, 2, 3))):
        if buffer:
            buffer = random.choice(BENDS)(random, buffer)
    return buffer


def bent_image(random, text):
    """Returns an image with one or two alterations, usually after the seeds. Usually the length and
    the digest are then corrected.
    """
    for _ in range(random.choice((1, 1, 2))):
        first = 0 if random.random() < 0.2 else BEHIND_SEEDS
        text = text[:first] + random.choice(IMAGE_BENDS)(random, text[first:] or b"\0")
    if len(text) > HEAD_BYTES + DIGEST_AT_END and random.random() < 0.9:
        text = put(text[:-DIGEST_AT_END], LENGTH_AT, frames.number(len(text), 4))
        text += digest(frames.SHA256, text)
    return text


def bent_lines(random, lines):
    """Returns altered lines, and the number of alterations. Lines are altered, dropped, repeated,
    or swapped with the next line.
    """
    lines, bent = list(lines), 0
    for at, text in enumerate(lines):
        if random.random() >= SELDOM:
            continue
        buffer = buffer_of(text)
        if buffer is not None and random.random() < 0.8:
            lines[at] = line(bent_buffer(random, buffer))
        elif random.random() < 0.5:
            lines[at : at + 2] = lines[at : at + 2][::-1]
        else:
            lines[at] = random.choice(("", f"{text}\n{text}"))
        bent += 1
    return lines, bent


def bent_script(random, lines):
    """Returns the text of an altered script, and the number of altered lines."""
    lines, bent = bent_lines(random, lines)
    text = bytearray("\n".join(lines).encode("ascii") + b"\n")
    if random.random() < OFTEN:
        for _ in range(random.randrange(1, 4)):
            at = random.randrange(len(text) // 2, len(text))
            text[at] = random.choice((text[at] ^ 1, random.randrange(256), 0x20, 0x0A))
            bent += 1
    return bytes(text), bent
