"""Explains the journals and logs in a folder, and compares each explanation with the digests of
responses in the journal or log. Then explains each script of tests/ and examples/, and compares the
explanation with a program's output:

    explained.py FOLDER PROGRAM
"""

import pathlib
import subprocess
import sys

from tpmsim.explain.play import Play
from tests.common import places

OTHERWISE = "the response is another one than was recorded, by its sum"


def faults_of(play, events):
    """Returns the faults that show that a log is damaged. A response that differs from the recorded
    response is not such a fault.
    """
    words = [it.words for event in events for it in event.differences if it.words != OTHERWISE]
    return [*([play.fault] if play.fault else []), *play.damages, *words]


def others_of(events):
    """Returns the events for which the explained response differs from the recorded one."""
    return [it for it in events if it.differences or (it.reason is None) == bool(it.refused)]


def logs(folder):
    """Returns the events of each undamaged log, and a text with the number of these logs, and of
    those with an incomplete end. Prints the damaged logs.
    """
    found, cuts = dict[pathlib.Path, list](), 0
    for path in sorted(pathlib.Path(folder).iterdir()):
        play = Play()
        events = [it for it in play.events(path.read_bytes()) if not it.is_power]
        faults = faults_of(play, events)
        if faults:
            print(f"{path.name}: {faults[0]}, of {len(faults)} faults in {len(events)} commands")
            continue
        found[path], cuts = events, cuts + len(play.cuts)
    return found, f"{len(found)} whole logs, {cuts} of them with a cut end"


def scripts(program):
    found = dict[pathlib.Path, list]()
    for path in places.scripts():
        told = subprocess.run([program, "run", "--trace", path], capture_output=True).stdout
        found[path] = [it for it in Play(None, told).events(path.read_bytes()) if not it.is_power]
    return found, f"{len(found)} scripts"


def report(found, words):
    """Prints the number of events. Returns the events for which the explained response differs."""
    for path, events in found.items():
        other = others_of(events)
        if other:
            print(f"{path.name}: line {other[0].line} is explained otherwise, of {len(other)} such")
    events = [it for those in found.values() for it in those]
    refused, wrong = sum(bool(it.refused) for it in events), len(others_of(events))
    completed = sum(bool(it.layer) for it in events)
    print(f"{words}: {len(events):,} commands, {len(events) - refused:,} accepted,", end=" ")
    print(f"{refused:,} refused, {completed:,} of these by the layer,", end=" ")
    print(f"{wrong} explained otherwise than they were answered")
    return wrong or not events


def main(folder, program):
    return int(bool(report(*logs(folder)) | report(*scripts(program))))


if __name__ == "__main__":
    sys.exit(main(*sys.argv[1:]))
