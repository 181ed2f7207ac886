"""Checks the lines of all scripts, and checks which lines `tpmsim line` finds for their buffers:

    python3 line.py PROGRAM

The buffer of each `do` line of tests/ and examples/ is checked twice. If it is parsed, and
frames.py encodes the parts again, the result must be the same buffer. The line that the Python
device finds for the buffer must assemble to it. In a script that a program wrote, each `cmd` line
must be a command that no line in words can encode. This does not apply if the script says that its
commands are written as bytes. The program must find the same lines as the Python device. The test
passes the program the first buffers of each command, and a tenth of the other buffers. Altered
scripts have many `cmd` lines, so the test passes only a twentieth of their buffers.
"""

import collections
import functools
import sys

from tpmsim.model import general
from tpmsim.standard import Fields, frames, lines, Profile
from tests.common import places
from tests.common.expected import line_told
from tests.common.made import COMPLETE
from tests.common.script import MADE_THIS, WROTE_THIS
from tests.common.shims import Shim, Turns

EACH = 20
FIRST, STEP = 25, 10
AS_BYTES = "All commands are in bytes"


# Many scripts have the same lines, so results are cached.
line_of = functools.cache(lines.line_of)


@functools.cache
def assembled(line):
    """Returns the buffer of a line, or None for a bad line."""
    try:
        return lines.assemble(line)
    except lines.Fault:
        return None


def put_together(buffer):
    """Parses a buffer in the same way as the device, and encodes its parts again."""
    fields = Fields(buffer)
    tag, code = general.read_header(fields, len(buffer), Profile.SYMMETRIC)
    handles = [fields.number(4) for _ in code.handles]
    entries = general.read_area(fields) if tag == frames.SESSIONS else []
    return frames.buffer_of(code, handles, entries, fields.data)


@functools.cache
def is_right(line):
    buffer = assembled(line)
    if buffer is None:
        return False
    again = line_of(buffer) or ""
    return put_together(buffer) == buffer == assembled(again.encode("ascii"))


def faults(text):
    """Yields the numbers of the lines in a script that fail a check."""
    told = text.replace("\n# ", " ")
    is_written = (WROTE_THIS in told or MADE_THIS in told) and AS_BYTES not in told
    for number, line in enumerate(text.splitlines(), 1):
        word, _, argument = line.partition(" ")
        if word == "do" and not is_right(argument.encode("ascii")):
            yield number
        if word == "cmd" and is_written and line_of(bytes.fromhex(argument)):
            yield number


def arguments(word):
    """Returns the arguments of all script lines that begin with `word`, without duplicates."""
    told = (
        line.partition(b" ") for it in places.scripts() for line in it.read_bytes().splitlines()
    )
    return list(dict.fromkeys(behind for front, _, behind in told if front == word))


def check(turns, buffer):
    """Returns whether the program prints the right line for a buffer. If not, prints the program's
    result and the expected one.
    """
    told, wanted = turns.run(word=buffer.hex().encode("ascii")), line_told(buffer)
    if told != wanted:
        print(f"FAILED: {buffer.hex()}: {told}, and not {wanted}")
    return told == wanted


def some(buffers):
    """Yields the first few buffers of each command, and then only every STEP-th buffer."""
    seen = collections.Counter()
    for buffer in buffers:
        code = buffer[6:10]
        if seen[code] < FIRST or seen[code] % STEP == 0:
            yield buffer
        seen[code] += 1


# A script with a .status file must fail, so one of its lines may not assemble. The commands of scripts in
# tests/complete are those of the complete profile, and the program's `line` knows the symmetric profile.
scripts = [it for it in places.scripts() if it.parent.name != COMPLETE]
ending_well = [it for it in scripts if not it.with_suffix(".status").exists()]
wrong = [f"{it}:{at}" for it in ending_well for at in faults(it.read_text("ascii"))]
print("\n".join(f"FAILED: {it}" for it in wrong) or "each do line comes back as a line")
spelled = dict.fromkeys(buffer for it in arguments(b"do") if (buffer := assembled(it)))
bent = [bytes.fromhex(it.decode()) for it in arguments(b"cmd") if it and len(it) % 2 == 0][::EACH]
with Turns(Shim(sys.argv[1], "turns"), ["line", ""]) as turns:
    if all([check(turns, it) for it in some(spelled)]):
        print("as one of its buffer, where the program is asked")
    if all([check(turns, it) for it in bent]):
        print("of the buffers of cmd lines, those that no line spells have none")
