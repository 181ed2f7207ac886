"""Plays random events on the Python device. After each event, compares the device with the state
that its history determines:

    histories.py EVENTS [SEED]

An event is a power cycle or a command, which may be refused. A new device begins every thousand
events, with the next seed. The program prints the number of compared events, and how many of them
were accepted. At the first difference it ends with status 1.
"""

import itertools
import sys

from tpmsim.model.history import History
from tests.at_random.random_script import Writer

EVENTS_OF_ONE = 1000


def compare(events, seed):
    """Plays this many events on one device. Returns the number of accepted events, and the first
    difference, if any.
    """
    writer, history, accepted = Writer(seed), History(), itertools.count()

    def add(event):
        history.add(event)
        next(accepted)

    writer.device.tell = add
    for number in range(1, events + 1):
        writer.step()
        differences = list(history.differences(writer.device))
        if differences:
            return next(accepted), f"seed {seed}, event {number}: {', '.join(differences)}"
    return next(accepted), None


def main(events, seed="1"):
    left, seed, accepted = int(events), int(seed), 0
    while left > 0:
        more, difference = compare(min(left, EVENTS_OF_ONE), seed)
        accepted += more
        if difference:
            print(difference)
            return 1
        left, seed = left - EVENTS_OF_ONE, seed + 1
    print(f"{events} events, {accepted} of them accepted: each device is what its history tells")
    return 0


if __name__ == "__main__":
    sys.exit(main(*sys.argv[1:]))
