"""Plays scripts of tests/ and examples/ on devices in folders, and explains their journals:

    explained_journals.py PROGRAM

Each journal is explained in three ways: alone, as the script that `tpmsim script` prints from it,
and together with the output of `tpmsim run`. An accepted command must be explained as accepted, and
a refused command as refused, with a reason. The program prints the number of explained commands.
The status is 1 if an explanation is wrong.
"""

import pathlib
import sys
import tempfile

from tpmsim.explain.play import Play
from tests.common import places
from tests.common.shims import ran

# Longer scripts consist mostly of altered commands, whose explanations other tests check.
MOST_BYTES = 20_000
SHOWN = 8


def answered_since(printed):
    """Returns the lines of the output after the last power cycle."""
    lines = printed.decode("ascii").splitlines()
    cycles = [at for at, line in enumerate(lines, 1) if line == "power"]
    return lines[cycles[-1] if cycles else 0 :]


def wrong_lines(log, lines, responses):
    """Returns the lines of commands whose explanation is missing or disagrees with the response."""
    play = Play(answers="".join(f"{it}\n" for it in lines).encode() if lines else None)
    events = list(play.events(log))
    wrong = [0] if len(events) != len(responses) or play.fault or play.damages or play.cuts else []
    for event, response in zip(events, responses):
        is_refused = any(bytes.fromhex(response)[6:10])
        is_told = bool(event.refused), event.reason is not None
        if event.differences or not event.answers or is_told != (is_refused, is_refused):
            wrong.append(event.line)
    return wrong


def check(program, script, folder):
    """Returns the number of explained commands of a script, and the lines with wrong explanations."""
    printed = ran(program, "run", "--trace", "--state", folder, str(script)).output
    lines = answered_since(printed)
    responses = lines[1::2]
    journal = pathlib.Path(folder, "journal").read_bytes()
    told = ran(program, "script", folder).output
    logs = (journal, []), (told, []), (journal, lines)
    return len(logs) * len(responses), [it for log in logs for it in wrong_lines(*log, responses)]


def main():
    program, count, faults = sys.argv[1], 0, 0
    for script in places.scripts():
        if script.stat().st_size > MOST_BYTES:
            continue
        with tempfile.TemporaryDirectory(dir=".") as folder:
            commands, wrong = check(program, script, folder)
        count += commands
        faults += len(wrong)
        if wrong:
            print(f"{script.name} is explained wrongly in the lines {wrong[:SHOWN]}")
    print("thousands of commands" if count >= 3000 else f"{count} commands", end=", ")
    print(f"{faults} explained otherwise than they were answered")
    return 1 if faults else 0


if __name__ == "__main__":
    sys.exit(main())
