"""Compares the list of all refusals, tpmsim.standard.rows, with the program, both ways:

    refusals.py PROGRAM

The program plays a script of each refusal of the list, and has to refuse its last command by
exactly the listed check and with the listed code. Then no refusal that the program prints for the
scripts of the tests, and for random scripts of both profiles, may be missing from the list. Then
the list gets one mistake at a time, and the test must find it.
"""

import collections
import concurrent.futures
import os
import re
import sys
import tempfile
from collections.abc import Iterable, Iterator
from dataclasses import replace

from tpmsim.device.base import line_in_bytes
from tpmsim.refusals.made import made, Refusal
from tpmsim.standard import CC, Profile
from tpmsim.standard.rows import AnyRow, every_row, Row, rows_of
from tests.at_random.random_script import written, WRITERS
from tests.common import places
from tests.common.made import COMPLETE
from tests.common.shims import ran

TRACE = re.compile(r"(\S+) L[0-4] \+\d+ (\S+) ([0-9a-f]{8})")
AT_ONCE = 3

# The check of a response MEMORY, which the list leaves out.
MEMORY = "M"

# The refusals that count as failed tries, or disable lockoutAuth. All others leave the device as it
# is, so that one script can play several of them.
COUNTED = "AUTH_FAIL"

RANDOM_SCRIPTS, COMMANDS = 4, 400

# What `run` needs to make a device of a profile.
OPTIONS = {Profile.SYMMETRIC: (), Profile.COMPLETE: ("--complete",)}

# A refusal as the program's trace says it: the command's name, the check, and the code.
Trace = tuple[str, str, int]


def trace_of(row: AnyRow) -> Trace:
    return row.name, row.check, row.code


def traces(output: bytes) -> list[Trace]:
    """Returns the traces in the output of `tpmsim run --trace`."""
    found = filter(None, map(TRACE.fullmatch, output.decode("latin-1").splitlines()))
    return [(it[1], it[2], int(it[3], 16)) for it in found]


def played(program: str, buffers: Iterable[bytes], *words: str) -> list[Trace]:
    """Returns the traces of commands on a new device, or on that of `--state FOLDER`."""
    script = "".join(f"{line_in_bytes(it)}\n" for it in buffers)
    return traces(ran(program, "run", "--trace", *words, "-", stdin=script.encode()).output)


def play_far(program: str, refused: Refusal) -> list[Trace]:
    """Returns the trace of a refusal that no script reaches, on the device of its state text."""
    with tempfile.TemporaryDirectory() as folder:
        state, device = os.path.join(folder, "state"), os.path.join(folder, "device")
        with open(state, "wb") as file:
            file.write(refused.state)
        ran(program, "restore", device, state)
        return played(program, [refused.buffer], "--state", device)


def play(program: str, those: list[Refusal]) -> Iterator[str]:
    """Plays refusals that follow the same commands, and yields what differs from the list."""
    before = those[0].before
    if those[0].far:
        found = play_far(program, those[0])
    else:
        buffers = *before, *(it.buffer for it in those)
        found = played(program, buffers, *OPTIONS[those[0].row.profile])[len(before) :]
    for refused, trace in zip(those, [*found, *[("nothing", "", 0)] * len(those)]):
        if trace != trace_of(refused.row):
            yield f"{words_of(trace_of(refused.row))}: {words_of(trace)}"


def words_of(trace: Trace) -> str:
    name, check, code = trace
    return f"{name} {check} {code:03X}"


def in_groups(refusals: Iterable[Refusal]) -> list[list[Refusal]]:
    """Returns groups of refusals that one script can play."""
    groups = collections.defaultdict(list)
    for it in refusals:
        is_alone = COUNTED in it.row.code_name or it.far
        groups[it.before, it.row.profile, it.row if is_alone else None].append(it)
    return list(groups.values())


def unmet(program: str, rows: Iterable[AnyRow]) -> list[str]:
    """Returns what differs from the list: refusals that nothing makes, or that the program gives
    otherwise.
    """
    refusals, missing = [], []
    for row in rows:
        try:
            refusals.append(made(row))
        except (KeyError, IndexError):
            missing.append(f"{words_of(trace_of(row))}: nothing makes it")
    with concurrent.futures.ThreadPoolExecutor(AT_ONCE) as pool:
        found = pool.map(lambda it: list(play(program, it)), in_groups(refusals))
        return missing + [it for some in found for it in some]


def scripts(profile: Profile) -> Iterator[bytes]:
    """Yields the scripts of the tests for devices of a profile, and random ones."""
    known = (
        places.scripts() if profile == Profile.SYMMETRIC else places.scripts(f"tests/{COMPLETE}")
    )
    yield from (it.read_bytes() for it in known)
    name = next(name for name, it in WRITERS.items() if it.PROFILE == profile)
    for seed in range(1, RANDOM_SCRIPTS + 1):
        yield "".join(f"{it}\n" for it in written(seed, COMMANDS, name).lines).encode()


def met(program: str) -> set[Trace]:
    """Returns all refusals that the program prints for the scripts of the tests and random ones."""
    texts = [(text, profile) for profile in Profile for text in scripts(profile)]

    def trace(text: bytes, profile: Profile) -> list[Trace]:
        words = "run", "--trace", *OPTIONS[profile], "-"
        return traces(ran(program, *words, stdin=text).output)

    with concurrent.futures.ThreadPoolExecutor(AT_ONCE) as pool:
        found = {it for some in pool.map(lambda it: trace(*it), texts) for it in some}
    return {it for it in found if it[1] not in ("ok", MEMORY)}


def unlisted(those: set[Trace], rows: Iterable[AnyRow]) -> list[str]:
    """Returns the refusals that the list does not have."""
    return [words_of(it) for it in sorted(those - set(map(trace_of, rows)))]


def main() -> int:
    """Prints the comparison; the status is 1 if anything differs or a mistake is not found."""
    program = sys.argv[1]
    rows = every_row()
    wrong = unmet(program, rows)
    counts = collections.Counter(it.kind.value for it in rows)
    print(f"{len(rows)} REFUSALS: {', '.join(f'{kind} {counts[kind]}' for kind in counts)}")
    print(f"on the program: {len(wrong)} differ")
    found = met(program)
    others = unlisted(found, rows)
    print(f"refusals of scripts that are not in the list: {len(others)}")
    for it in (*wrong, *others):
        print(f"DIFFERS: {it}")
    print("MISTAKES IN THE LIST:")
    locked = next(it for it in rows_of(CC.NV_Write) if it.check == "A2")
    new: tuple[Row, ...] = (replace(locked, check="A5"), replace(locked, code=locked.code + 1))
    mistakes = [unmet(program, [it]) for it in new]
    mistakes.append(unlisted(found, [it for it in rows if it != locked]))
    for told in mistakes:
        print("; ".join(told) or "NOT FOUND")
    return 1 if wrong or others or not all(mistakes) else 0


if __name__ == "__main__":
    sys.exit(main())
