"""Compares a program with the Python device on random input (tools/soak/fuzz.sh):

    fuzz.py PROGRAM SECONDS [SEED]     plays rounds for this time, beginning with the seed SEED
    fuzz.py PROGRAM --rounds N SEED    plays N rounds
    fuzz.py PROGRAM --replay FILE      plays a script or a stream that an earlier run saved

A round consists of a random script, an altered script, and a stream. A stream contains connections
to a device that is served in consecutive runs. Some of the runs begin with an altered image. A
round depends only on its seed.
"""

import contextlib
import pathlib
import random
import sys
import tempfile
import time
from collections import Counter
from dataclasses import dataclass, field
from itertools import zip_longest

from tpmsim.model import player
from tpmsim.model.general import Refusal
from tpmsim.standard.reading import Short
from tests.at_random import served_runs as serving
from tests.at_random.bent_script import bent_script
from tests.at_random.random_script import written
from tests.at_random.random_stream import random_stream
from tests.common import streams
from tests.common.shims import ran

COMMANDS, RUNS = 400, 8
SHRINKING_SECONDS = 60
SHOWN = 200


# Functions that compare scripts.


def bytes_text(lines):
    return b"\n".join(lines) + b"\n"


def script_difference(program, lines):
    """Returns None if the program prints what is expected for a script. Otherwise returns the
    number of the first line that differs, the expected output, and the actual one.
    """
    printed, error = player.played(bytes_text(lines))
    with tempfile.NamedTemporaryFile() as script:
        script.write(bytes_text(lines))
        script.flush()
        ended = ran(program, "run", "--trace", script.name)
    number = 0
    for wanted, line in zip_longest(printed, ended.output.decode("utf-8", "replace").splitlines()):
        number, shown = wanted or (number, "no more")
        if shown != line:
            return number, shown, line or "no more"
    wanted = f"status {({'': 0, 'tpmsim: file': 3}).get(error, 2)} {error}"
    given = f"status {ended.status} {ended.error.decode('utf-8', 'replace').strip()}"
    return None if wanted == given else (number, wanted, given)


def stream_difference(program, lines):
    return serving.first_difference(program, [it.decode("ascii") for it in lines])


def bytes_lines(text):
    return text.removesuffix(b"\n").split(b"\n")


# The kinds of input.

# If the Python device raises one of these exceptions, it has a defect, which counts as a
# difference.
DEFECTS = (
    *(ArithmeticError, AssertionError, AttributeError, LookupError, TypeError, ValueError),
    *(Refusal, Short),
)


@dataclass
class Kind:
    """A kind of input: scripts, altered scripts or streams. `ending` is the suffix of its files.
    `difference` is the function that finds where the results for an input differ. `tried` counts
    the inputs, what they contain, and those whose results differ.
    """

    name: str
    ending: str
    difference: callable
    tried: Counter = field(default_factory=Counter)

    def first_difference(self, program, lines):
        try:
            return self.difference(program, lines)
        except DEFECTS as fault:
            return 0, "a device in Python that does not fail", repr(fault)

    def told(self):
        within = dict(self.tried)
        texts, differ = within.pop("texts", 0), within.pop("differ", 0)
        counts = ", ".join(f"{count} {name.replace('_', ' ')}" for name, count in within.items())
        return f"{self.name}: {texts} of {counts}: {texts - differ} agree, {differ} differ"


def shrunken(lines, differs):
    """Removes lines from an input, as long as the program and the Python device still differ on the
    remaining lines. Stops after a limited time, and returns the remaining lines.
    """
    until = time.monotonic() + SHRINKING_SECONDS
    size, before = len(lines), len(lines)
    while size and time.monotonic() < until:
        at = 0
        while at < len(lines) and time.monotonic() < until:
            fewer = lines[:at] + lines[at + size :]
            if fewer and differs(fewer):
                lines = fewer
            else:
                at += size
        size //= 2
        if not size and len(lines) < before:
            size, before = len(lines), len(lines)
    return lines


def shown(wanted, given):
    """Yields the expected and the actual text. Long texts are shortened: they begin shortly before
    the first character that differs.
    """
    same = next((at for at, (a, b) in enumerate(zip(wanted, given)) if a != b), 0)
    first = max(0, same - SHOWN // 4) if max(len(wanted), len(given)) > SHOWN else 0
    for text in (wanted, given):
        before = f"({first} characters).." if first else ""
        yield before + text[first : first + SHOWN] + (".." if len(text) > first + SHOWN else "")


class Fuzz:
    """Plays rounds, and collects their results."""

    def __init__(self, program):
        self.program, self.folder = program, None
        self.scripts = Kind("random scripts", "tpm", script_difference)
        self.bent = Kind("bent scripts", "tpm", script_difference)
        self.streams = Kind("streams", "stream", stream_difference)
        self.kinds = self.scripts, self.bent, self.streams

    @property
    def differ(self):
        return sum(it.tried["differ"] for it in self.kinds)

    def round(self, seed):
        writer = written(seed, COMMANDS)
        lines = [it.encode("ascii") for it in writer.lines]
        self.compare(seed, self.scripts, lines, commands=COMMANDS)

        text, bent = bent_script(random.Random(f"{seed} bent"), writer.lines)
        traced = [it for _, it in player.played(text)[0] if it != "power"]
        self.compare(seed, self.bent, bytes_lines(text), commands=len(traced) // 2, bent=bent)

        lines = random_stream(f"{seed} stream", RUNS)
        runs = streams.played(lines)
        connections = [it for run in runs for it in run.connections]
        self.compare(
            seed,
            self.streams,
            [it.encode("ascii") for it in lines],
            commands=sum(len(it.answered) for it in connections),
            connections=len(connections),
            reloads=sum(it.image_before is not None for it in runs),
            given_images=sum(it.is_given for it in runs),
        )

    def compare(self, seed, kind, lines, **counts):
        kind.tried.update(counts, texts=1)
        found = kind.first_difference(self.program, lines)
        if found is None:
            return
        kind.tried["differ"] += 1
        name = f"{seed}.{kind.name.replace(' ', '_')}"
        print(f"DIFFERS: seed {seed}, {kind.name}")
        self.leave(f"{name}.{kind.ending}", lines, found)
        if self.differ == 1:
            lines = shrunken(lines, lambda it: kind.first_difference(self.program, it))
            found = kind.first_difference(self.program, lines) or found
            print(f"    and with {len(lines)} lines alone:")
            self.leave(f"{name}.shrunken.{kind.ending}", lines, found)

    def leave(self, name, lines, found):
        """Writes an input to a file, and prints the expected and the actual result where they
        differ.
        """
        self.folder = self.folder or pathlib.Path(tempfile.mkdtemp(prefix="fuzz."))
        path = self.folder / name
        path.write_bytes(bytes_text(lines))
        show(path, *found)


def show(path, number, wanted, given):
    wanted, given = shown(wanted, given)
    print(f"    {path}:{number}")
    print(f"        wanted: {wanted}")
    print(f"        given:  {given}", flush=True)


def replay(program, name):
    """Plays an input that an earlier run saved. Returns 1 if the results still differ, else 0."""
    path = pathlib.Path(name)
    lines = bytes_lines(path.read_bytes())
    found = (stream_difference if path.suffix == ".stream" else script_difference)(program, lines)
    if found:
        show(path, *found)
    print("it differs" if found else "it agrees")
    return 1 if found else 0


def main(program, *words):
    seconds, last = float("inf"), float("inf")
    match words:
        case "--replay", name:
            return replay(program, name)
        case "--rounds", count, seed:
            first, last = int(seed), int(seed) + int(count)
        case _:
            seconds, first = float(words[0]), int(words[1] if len(words) > 1 else time.time())
    fuzz, seed, until = Fuzz(program), first, time.monotonic() + seconds
    print(f"from seed {first} on", flush=True)
    while seed < last and time.monotonic() < until:
        with contextlib.ExitStack() as failing:
            failing.callback(print, f"FAILS: seed {seed}", flush=True)
            fuzz.round(seed)
            failing.pop_all()
        seed += 1
    print(f"{seed - first} rounds")
    print(*(kind.told() for kind in fuzz.kinds), sep="\n")
    return 1 if fuzz.differ else 0


if __name__ == "__main__":
    sys.exit(main(*sys.argv[1:]))
