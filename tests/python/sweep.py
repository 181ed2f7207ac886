"""Audits the output of a program for scripts:

    sweep.py PROGRAM COUNT [SEED]

The program audits each script of tests/ and examples/, and COUNT random scripts, with the seeds
from SEED on. Each random script is audited twice more: starting from the device's image at a power
cycle, and with some of its lines altered. If a script ends with a bad line, the audit must agree up
to that line. The program names the logs whose audit is wrong, and saves their scripts. At the end
it prints the numbers of audits. The status is 1 if an audit is wrong.
"""

import pathlib
import random
import sys
import tempfile

from tpmsim.audit import start
from tpmsim.audit.auditor import report
from tpmsim.model.image import image
from tpmsim.model.player import Player
from tests.common import places
from tests.common.shims import ran
from tests.python.cases import audited
from tests.at_random.bent_script import bent_script
from tests.at_random.random_script import written

COMMANDS = 400


def traced(program, path):
    """Returns the program's output for a script, and its standard error."""
    ended = ran(program, "run", "--trace", path)
    return ended.output, ended.error.decode("ascii", "replace").strip()


def wanted_of(error):
    """Returns the fault that the audit must find, according to the standard error of the program."""
    line = error.removeprefix("tpmsim: script line ")
    words = f"script line {line} is not a line of a script; the log agrees up to it"
    return words if error else None


def from_image(script, output):
    """Returns a log that begins at a power cycle: the device's image at that point, the rest of the
    script, and the rest of its output. Returns None if the script has no power cycle.
    """
    lines = script.splitlines()
    cycles = [at for at, line in enumerate(lines) if line == b"power"]
    if not cycles:
        return None
    at, player, printed = cycles[len(cycles) // 2], Player(), 0
    for line in lines[:at]:
        printed += len(player.play(line))
    told = f"loc {player.locality}\nentropy {player.random.hex()}\nwait {player.elapsed}\n"
    rest = b"".join(line + b"\n" for line in lines[at + 1 :])
    return image(player.device), told.encode() + rest, output.split(b"\n", printed + 1)[-1]


class Sweep:
    def __init__(self, program):
        self.program, self.agree, self.differ, self.events = program, 0, 0, 0

    def told(self):
        return f"{self.agree} agree, {self.differ} differ; {self.events} events"

    def judge(self, path, begin, script, output, wanted=None):
        """Audits a log. Returns whether the result is the expected fault, or no fault if none is
        expected.
        """
        auditor, fault = audited(script, output, begin=begin)
        list(report(auditor))
        self.events += auditor.counts.events
        self.agree, self.differ = self.agree + (fault == wanted), self.differ + (fault != wanted)
        if fault != wanted:
            print(f"DIFFERS: {path}, {begin.words}: {fault or 'all agrees'}", flush=True)
        return fault == wanted

    def judge_script(self, path):
        output, error = traced(self.program, path)
        return self.judge(path, start.new(), path.read_bytes(), output, wanted_of(error))

    def judge_random(self, seed, folder):
        writer = written(seed, COMMANDS)
        path, bent = folder / f"{seed}.tpm", folder / f"{seed}.bent.tpm"
        path.write_text("\n".join(writer.lines) + "\n", "ascii")
        bent.write_bytes(bent_script(random.Random(f"{seed} bent"), writer.lines)[0])
        if self.judge_script(path) and self.judge_from_image(path):
            path.unlink()
        if self.judge_script(bent):
            bent.unlink()

    def judge_from_image(self, path):
        script = path.read_bytes()
        found = from_image(script, traced(self.program, path)[0])
        if found is None:
            return True
        text, rest, output = found
        return self.judge(path, start.of_text(text), rest, output)


def main(program, count, seed="1"):
    sweep = Sweep(program)
    for path in places.scripts():
        sweep.judge_script(path)
    print(f"scripts of tests/ and examples/: {sweep.told()}", flush=True)
    folder = pathlib.Path(tempfile.mkdtemp(prefix="audits."))
    for number in range(int(seed), int(seed) + int(count)):
        sweep.judge_random(number, folder)
    if not any(folder.iterdir()):
        folder.rmdir()
    print(f"with {count} random ones: {sweep.told()}")
    return 1 if sweep.differ else 0


if __name__ == "__main__":
    sys.exit(main(*sys.argv[1:]))
