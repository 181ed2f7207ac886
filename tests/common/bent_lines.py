"""Alters lines of commands token by token, and compares `tpmsim` with lines.py of the Python
device:

    tools/python.sh tests/common/bent_lines.py PROGRAM

The test takes one line for each command from assemble.lines. Each way to alter a token is applied
to every third token of these lines. For each way the test prints how many lines it altered, how
many of them assemble to a buffer, how many have each kind of fault, and for how many the program's
result differs from that of lines.py. Lines that begin with DIFFERS report differences. Then the
test plays some altered lines in scripts. Finally it inserts and replaces single bytes in script
lines, at each offset.
"""

import collections
import functools
import itertools
import pathlib
import sys
import tempfile

from tpmsim.model.machine import Model
from tpmsim.standard import lines
from tests.common.expected import assembled, fault_of, traced
from tests.common.shims import Ending, ran, Shim, Turns

TESTS = pathlib.Path(__file__).resolve().parent.parent
STARTUP, STARTED = b"do Startup 0\n", b"80010000000a00000000\n"

# Every third token is altered. Each way to alter a token starts one token later than the previous
# way.
EACH = 3

# The test also plays every fifth bad line in a script of its own, between two commands.
SAMPLED = 5

# Replacements for a token, by name.
REPLACEMENTS = {
    "a word": b"word",
    "a number": b"7",
    "a number of 17 bits": b"65536",
    "a number of 33 bits": b"0x100000000",
    "a number of 65 bits": b"18446744073709551616",
    "0x without digits": b"0x",
    "a number with a sign": b"-1",
    "nothing as a buffer": b"-",
    "hex": b"616263",
    "hex of odd length": b"61626",
    "hex of 4,096 bytes": b"5a" * 4096,
    "a handle": b"80000000",
    "a handle's name": b"OWNER",
    "pw: alone": b"pw:",
    "pw:-": b"pw:-",
    "a session's entry": b"s:02000000:5a5a:21:c3d4",
    "a session's entry without its hmac": b"s:02000000:-:01",
    "a list": b"61+-+6263",
    "a list with an empty piece": b"61++62",
    "a selection": b"sha256:0",
    "a selection of a PCR over 23": b"sha256:24",
    "a selection of two faults": b"sha1:x,24",
    "a digest": b"sha1:" + b"5a" * 20,
    "a hash": b"sha256",
    "null": b"null",
    "aes": b"aes",
    "xor-sha256": b"xor-sha256",
    "a letter of two bytes": b"\xc3\xa9",
    "a tab": b"\t",
    "a byte that is no UTF-8": b"\xff",
    "half a letter": b"\xc3",
}


# Lines of scripts. The test inserts bytes at each of their offsets, and replaces each of their
# bytes.
SCRIPT_LINES = (
    *(b"cmd 80010000000c0000017b0004", b"do GetRandom 4", b"loc 3", b"wait 1500"),
    *(b"entropy 5Ac3", b"power", b"# words", b""),
)
BYTES = {
    "a NUL": b"\0",
    "a byte that is no UTF-8": b"\xff",
    "half a letter": b"\xc3",
    "a letter of two bytes": b"\xc3\xa9",
    "a carriage return": b"\r",
    "a tab": b"\t",
    "a space": b" ",
    "a line break": b"\n",
    "a digit": b"0",
    "a sign": b"#",
    "nothing": b"",
}


# Functions that alter one token of a line. Their arguments are the tokens before this token, the
# token itself, and the tokens after it.


def replaced(word, before, token, behind):
    return [*before, word, *behind]


def swapped(before, token, behind):
    return [*before, *behind[:1], token, *behind[1:]]


BENDS = {
    "removed": lambda before, token, behind: before + behind,
    "removed with all behind it": lambda before, token, behind: before,
    "doubled": lambda before, token, behind: [*before, token, token, *behind],
    "swapped with the next": swapped,
    "emptied": lambda before, token, behind: [*before, b"", *behind],
    "behind an empty one": lambda before, token, behind: [*before, b"", token, *behind],
    "without its first byte": lambda before, token, behind: [*before, token[1:], *behind],
    "without its last byte": lambda before, token, behind: [*before, token[:-1], *behind],
    "with a digit more": lambda before, token, behind: [*before, token + b"0", *behind],
    "with a + behind it": lambda before, token, behind: [*before, token + b"+", *behind],
    "with a colon behind it": lambda before, token, behind: [*before, token + b":", *behind],
    "with a comma behind it": lambda before, token, behind: [*before, token + b",", *behind],
    "with itself as a piece more": lambda before, token, behind: (
        [*before, token + b"+" + token, *behind]
    ),
    "in the other case": lambda before, token, behind: [*before, token.swapcase(), *behind],
    "joined with the next": lambda before, token, behind: (
        [*before, token + behind[0], *behind[1:]] if behind else [*before, token]
    ),
}
BENDS |= {
    f"replaced by {name}": functools.partial(replaced, word) for name, word in REPLACEMENTS.items()
}


def first_lines():
    """Returns the lines in the first section of assemble.lines, which has one line for each
    command.
    """
    lines_of = (TESTS / "lines/assemble.lines").read_bytes().split(b"\n# ")[0].splitlines()[1:]
    return sorted(line for line in lines_of if line)


def bent(first, bend, begin=0, step=1):
    """Yields copies of the lines, each with one token altered. The tokens of all lines are counted
    together, and every `step`-th token is altered, starting with token number `begin`.
    """
    places = (
        (tokens, at) for tokens in (it.split(b" ") for it in first) for at in range(len(tokens))
    )
    for tokens, at in itertools.islice(places, begin, None, step):
        yield b" ".join(bend(tokens[:at], tokens[at], tokens[at + 1 :]))


# The tests of `tpmsim asm`.


def is_usage(line):
    """Returns whether `tpmsim asm` refuses a line as a usage fault, because it is not UTF-8 or
    looks like an unknown option.
    """
    try:
        line.decode("utf-8")
    except UnicodeDecodeError:
        return True
    return line.startswith(b"-") and line != b"-"


def wanted(line):
    """Returns the kind of result that `tpmsim asm` must have for a line, and the result itself."""
    if is_usage(line):
        return "usage", Ending(2, error=b"tpmsim: usage\n")
    return fault_of(line).partition(" ")[0] or "buffers", assembled(line)


def shown(line):
    return repr(line)[1:]


def compared(cases):
    """Returns the number of cases that differ. A case has a label, an expected outcome and an
    actual one.
    """
    differ = 0
    for label, want, give in cases:
        if want != give:
            differ += 1
            print(f"DIFFERS: {label}: wanted {want}, given {give}")
    return differ


def counted(outcomes):
    return ", ".join(f"{name} {count}" for name, count in sorted(outcomes.items()))


def try_bend(asm, name, bent_lines):
    """Passes lines that were all altered in the same way to `tpmsim asm`, and compares the
    outcomes.
    """
    want = [wanted(line) for line in bent_lines]
    give = [asm.run(word=line) for line in bent_lines]
    differ = compared(
        (shown(it), end, given) for it, (_, end), given in zip(bent_lines, want, give)
    )
    outcomes = collections.Counter(kind for kind, _ in want)
    print(f"{name}: {len(bent_lines)} lines: {counted(outcomes)}; {differ} differ")


# The tests with scripts.


def try_faults(scripts, what, bad):
    """Plays each bad line as the second of three lines. The program must report line 2."""
    want = Ending(2, STARTED, b"tpmsim: script line 2\n")
    give = [scripts.run(stdin=STARTUP + b"do " + it + b"\n" + STARTUP) for it in bad]
    differ = compared((shown(b"do " + it), want, given) for it, given in zip(bad, give))
    print(f"{what}: {len(bad)} scripts, each with one as its second line; {differ} differ")


def try_answers(program, good):
    """Plays all good lines as one script. The responses must be those of the Python device."""
    device, random = Model(), bytes(256)
    want = [device.execute(lines.assemble(line), 0, random).response.hex() for line in good]
    with tempfile.NamedTemporaryFile() as script:
        script.write(b"".join(b"do " + line + b"\n" for line in good))
        script.flush()
        given = ran(program, "run", script.name)
    differ = compared([("the script of all lines", (0, b""), (given.status, given.error))])
    pairs = itertools.zip_longest(good, want, given.output.decode("ascii").splitlines())
    differ += compared((shown(line or b""), it, answer) for line, it, answer in pairs)
    print(f"bent lines that are lines: one script, {len(good)} commands; {differ} differ")


def try_bytes(traces, what, put):
    """Inserts and replaces bytes at each offset of a script's second line, and plays the scripts."""
    bent_lines = [
        line[:at] + put + line[at + taken :]
        for line in SCRIPT_LINES
        for at in range(len(line) + 1)
        for taken in (0, 1)
    ]
    texts = [STARTUP + line + b"\n" + STARTUP for line in bent_lines]
    want = [traced(text) for text in texts]
    give = [traces.run(stdin=text) for text in texts]
    differ = compared(zip(map(shown, bent_lines), want, give))
    counts = f"{len(texts)} scripts, {sum(it.status != 0 for it in want)} with a bad line"
    print(f"{what} in a script's line: {counts}; {differ} differ")


def main(program):
    first = first_lines()
    print(f"{len(first)} commands, {sum(len(it.split(b' ')) for it in first)} tokens")
    shim, tried = Shim(program, "turns"), []
    with Turns(shim, ["asm", ""]) as asm:
        for number, (name, bend) in enumerate(BENDS.items()):
            bent_lines = list(bent(first, bend, number % EACH, EACH))
            try_bend(asm, name, bent_lines)
            tried += bent_lines
    once = list(dict.fromkeys(tried))
    with Turns(shim, ["run", "-"]) as scripts:
        bad = [it for it in once if fault_of(it)]
        try_faults(scripts, "bent lines that are none", bad[::SAMPLED])
        # A command-line argument cannot contain a NUL.
        nul = list(bent(first, functools.partial(replaced, b"\0")))
        try_faults(scripts, "lines with a NUL in place of a token", nul)
    try_answers(program, [it for it in once if not fault_of(it)])
    with Turns(shim, ["run", "--trace", "-"]) as traces:
        for name, put in BYTES.items():
            try_bytes(traces, name, put)


if __name__ == "__main__":
    main(sys.argv[1])
