"""Computes assemble.out: the results of the lines of assemble.lines, and of longer lines.
tests/lines/assemble.sh passes these lines to `tpmsim asm`, and tools/anew.sh writes assemble.out.

The lines in assemble.lines use printf's escapes: a byte that is not ASCII is \\ooo, in octal.
"""

import pathlib
import re

from tests.common.expected import assembled

HERE = pathlib.Path(__file__)
OUTPUT = HERE.with_suffix(".out")


def spelled(written):
    """Returns the bytes of a line, without printf's escapes."""
    named = {b"t": b"\t", b"r": b"\r", b"n": b"\n"}
    return re.sub(
        rb"\\([0-7]{3}|[trn])",
        lambda found: named.get(found[1]) or bytes([int(found[1], 8)]),
        written.encode("ascii"),
    )


def outcome(label, line):
    ended = assembled(line)
    output, error = (it.decode("ascii").strip() for it in (ended.output, ended.error))
    return f'{label}: status {ended.status}, output "{output}", error "{error}"'


def long_lines():
    """Yields the long lines, which assemble.sh makes itself, with their labels."""
    zeros = "0" * 59999
    yield "GetRandom and 60000 digits", f"GetRandom {zeros}7"
    yield "GetRandom and 0x and 60000 digits", f"GetRandom 0x{zeros}7"
    yield "GetRandom and a number of 60000 digits", f"GetRandom 1{zeros}"
    for size in (4067, 4068, 4096, 32767, 40000):
        yield f"PCR_Event and {size} bytes", f"PCR_Event 00000000 pw:- {'00' * size}"
    data, write = "00" * 4096, "NV_Write OWNER 01000000"
    yield "NV_Write of 4096 bytes", f"{write} pw:- {data} 0"
    yield "NV_Write of 4096 bytes without an offset", f"{write} pw:- {data}"
    yield "NV_Write of 4096 bytes and a half", f"{write} pw:- {data}0 0"
    yield "NV_Write of 4096 bytes at x", f"{write} pw:- {data} x"
    yield "NV_Write of 4096 bytes at 65536", f"{write} pw:- {data} 65536"
    yield "NV_Write of 4096 bytes and a space", f"{write} pw:- {data} 0 "
    yield "NV_Write by a password of 4096 bytes", f"{write} pw:{data} - 0"
    yield "NV_Write by a password of 4096 bytes at x", f"{write} pw:{data} - x"


def output() -> str:
    given = HERE.with_suffix(".lines").read_text("ascii").splitlines()
    of_lines = (it if it[:1] in ("", "#") else outcome(f'"{it}"', spelled(it)) for it in given)
    of_long_lines = (outcome(label, line.encode("ascii")) for label, line in long_lines())
    return "".join(f"{it}\n" for it in (*of_lines, *of_long_lines))
