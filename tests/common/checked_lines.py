"""Runs `tpmsim check` on a script of altered lines, and compares its reports with lines.py of the
Python device:

    tools/python.sh tests/common/checked_lines.py PROGRAM

The script contains each line of bent_lines.py once. For each kind of fault the test prints how many
bad lines have this fault, and for how many of them `tpmsim check` reports something else. The last
line counts the good lines. Lines that begin with DIFFERS report differences.
"""

import collections
import functools
import itertools
import sys
import tempfile

from tpmsim.standard import CC, lines
from tests.common import bent_lines
from tests.common.expected import fault_of
from tests.common.shims import ran

# The maximum number of entries in a line.
MOST_ENTRIES = 3

WANTED_NAME, WANTED_ENTRY, WANTED_END = "command", "entry", "end of line"
WANTED_LENGTH = "at most 4096 bytes"


def place_of(tokens: list[bytes], fault: str) -> int:
    """Returns the index of the token at fault. If a token is missing, returns the index after the
    last token.
    """
    if fault == lines.MISSING:
        return len(tokens)
    column = int(fault.split(" ")[1])
    starts = itertools.accumulate(tokens, lambda start, token: start + len(token) + 1, initial=1)
    return list(starts).index(column)


def words_wanted(code: CC, tokens: list[bytes]) -> list[str]:
    """Returns the kind of word that each position of a line must contain. The kinds depend on the
    command and on its number of entries.
    """
    name, *words = lines.form_of(code).replace("@", "").split(" ")
    handles = len(code.handles)
    front = tokens[1 + handles : 1 + handles + MOST_ENTRIES]
    entries = len(list(itertools.takewhile(lines.is_entry, front)))
    return [name, *words[:handles], *[WANTED_ENTRY] * entries, *words[handles:]]


def wanted_word(line: bytes, fault: str) -> str:
    if fault == lines.BAD_NAME:
        return WANTED_NAME
    if fault == lines.TOO_LONG:
        return WANTED_LENGTH
    tokens = line.split(b" ")
    words = words_wanted(CC[tokens[0].decode("ascii")], tokens)
    place = place_of(tokens, fault)
    return words[place] if place < len(words) else WANTED_END


def all_lines() -> list[bytes]:
    first = bent_lines.first_lines()
    nul = functools.partial(bent_lines.replaced, b"\0")
    bends = [*bent_lines.BENDS.values(), nul]
    return list(dict.fromkeys(line for bend in bends for line in bent_lines.bent(first, bend)))


def checked(program: str, script: bytes) -> dict[int, str]:
    """Returns what the program reports about each line of a script, by line number."""
    with tempfile.NamedTemporaryFile() as file:
        file.write(script)
        file.flush()
        output = ran(program, "check", file.name).output.decode("ascii")
    told = {}
    for line in output.splitlines():
        if line.startswith("    "):
            continue  # a hint
        number, _, fault = line.removeprefix("line ").partition(": ")
        told[int(number)] = fault
    return told


def main(program: str) -> None:
    bent = all_lines()
    script = b"".join(b"do " + line + b"\n" for line in bent)
    told = checked(program, script)
    counts: collections.Counter[str] = collections.Counter()
    differ: collections.Counter[str] = collections.Counter()
    for number, line in enumerate(bent, 1):
        fault = fault_of(line)
        want = f"{fault}: {wanted_word(line, fault)}" if fault else ""
        give, name = told.get(number, ""), fault.split(" ")[0] or "good"
        counts[name] += 1
        if give != want:
            differ[name] += 1
            print(f"DIFFERS: {bent_lines.shown(line)}: wanted {want}, given {give}")
    for name, count in sorted(counts.items()):
        print(f"{name}: {count} lines; {differ[name]} differ")


if __name__ == "__main__":
    main(sys.argv[1])
