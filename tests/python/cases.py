"""Runs tools/audit.py many times in one process, each time with different arguments:

    cases.py <CASES

A line of CASES contains a label and the arguments, separated by tabs. For each case the program
prints the status, standard error, and the last line of standard output.
"""

import contextlib
import io
import sys

from tpmsim.audit import main as audit, start
from tpmsim.audit.auditor import Auditor
from tpmsim.audit.log import Disagreement, Log
from tpmsim.model import player


def printed(script):
    """Returns the output of the Python device, including any patches to it, for a script."""
    return "".join(f"{it}\n" for _, it in player.played(script)[0]).encode()


def audited(script, output, files=(), begin=None):
    """Audits the output of a script. Returns the auditor, and the fault that it finds, if any."""
    auditor = Auditor(begin or start.new(), Log(output), files)
    try:
        auditor.read(script)
    except Disagreement as fault:
        return auditor, str(fault)
    return auditor, None


def run(label, *words):
    printed, said = io.StringIO(), io.StringIO()
    with contextlib.redirect_stdout(printed), contextlib.redirect_stderr(said):
        status = audit.main(*words)
    yield f"{label}: status {status}"
    yield from (f"    error: {it}" for it in said.getvalue().splitlines())
    yield from (f"    last line: {it}" for it in printed.getvalue().splitlines()[-1:])


def main():
    for line in sys.stdin:
        label, *words = line.rstrip("\n").split("\t")
        print(label) if not words else print(*run(label, *words), sep="\n")


if __name__ == "__main__":
    main()
