"""Runs several processes at once on one device that is kept in a folder, and kills some of them:

    python3 state_processes.py PROGRAM

Each command increments an index. The journal must contain all answered commands. Therefore the
index must have counted at least each answered command, and at most each command that was sent.
"""

import random
import subprocess
import sys
import time

from tests.common import shims
from tests.keeping.counted import answer_of, COMMANDS, DEFINE, INCREMENT, READ, STARTUP

INCREMENTED = "80020000001300000000000000000000010000"


def begun(program: str, *acts: str) -> "subprocess.Popen[bytes]":
    """Begins a run that reads its commands from a pipe."""
    run = shims.begun([program, "run", "--state", "state", "-"])
    assert run.stdin
    run.stdin.write("".join(f"cmd {COMMANDS[act].hex()}\n" for act in acts).encode("ascii"))
    run.stdin.close()
    run.stdin = None
    return run


def answers(run: "subprocess.Popen[bytes]") -> list[str]:
    """Returns the responses of a run."""
    return run.communicate()[0].decode("ascii").splitlines()


def count(program: str) -> int:
    """Returns the number that the index has counted."""
    (line,) = answers(begun(program, READ))
    answer = answer_of(READ, bytes.fromhex(line))
    if not isinstance(answer, tuple):
        shims.fail(f"the index is gone: {answer}")
    return int(answer[1])


def together(program: str, processes: int, each: int) -> None:
    """Runs several processes at once. Each process increments the index `each` times."""
    before = count(program)
    runs = [begun(program, *[INCREMENT] * each) for _ in range(processes)]
    said = [line for run in runs for line in answers(run)]
    more, wanted = count(program) - before, processes * each
    fine = said == [INCREMENTED] * wanted and more == wanted
    print(f"{processes} processes at once: {'all' if fine else 'NOT ALL'} answered and kept")


def killed(program: str, times: int) -> None:
    """Kills processes at random moments while others continue."""
    rolls = random.Random(57)
    lost = 0
    for _ in range(times):
        before = count(program)
        run, other = begun(program, *[INCREMENT] * 400), begun(program, *[INCREMENT] * 3)
        time.sleep(rolls.uniform(0.0, 0.08))
        run.kill()
        said = sum(line == INCREMENTED for line in answers(run) + answers(other))
        lost += not said <= count(program) - before <= 403
    print(f"{times} processes killed: {lost} of them lost an answer")


def main() -> None:
    """Runs all tests in the current folder."""
    (program,) = sys.argv[1:]
    print(answers(begun(program, STARTUP, DEFINE, INCREMENT))[0])
    together(program, 4, 25)
    killed(program, 12)
    power = subprocess.run([program, "power", "state"], check=False)
    print(f"a power cycle: status {power.returncode}")


if __name__ == "__main__":
    main()
