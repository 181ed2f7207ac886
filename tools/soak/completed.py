"""Explains journals of random commands with the completing layer, as
clients/python/tests/test_completion.py does in the gate, and compares the library's responses with those of
the layer in Python.

    tools/python.sh tools/soak/completed.py SECONDS [SEED]

It prints the seeds for which the responses differ, and the totals. The status is 1 if there is such
a seed.
"""

import itertools
import pathlib
import sys
import time

sys.path.insert(0, str(pathlib.Path(__file__).resolve().parents[2] / "clients" / "python" / "tests"))

from test_completion import recorded, wrong  # noqa: E402
from tpmsim.explain.play import Play  # noqa: E402

COMMANDS = 1000


def main(seconds, first):
    end, count, faults = time.monotonic() + seconds, 0, 0
    for seed in itertools.count(first):
        if time.monotonic() > end:
            break
        journal, answered = recorded(seed, COMMANDS)
        events = list(Play().events(journal))
        count += len(events)
        differ = [it.line for it, response in zip(events, answered) if wrong(it, response)]
        if differ or len(events) != len(answered):
            faults += 1
            print(f"seed {seed} differs: {len(events)} of {len(answered)} commands, lines {differ}")
    print(f"{count:,} commands of the seeds from {first} on, {faults} seeds that differ")
    return 1 if faults or not count else 0


if __name__ == "__main__":
    sys.exit(main(float(sys.argv[1]), int(sys.argv[2]) if len(sys.argv) > 2 else 1))
