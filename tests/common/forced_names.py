"""Tests what `tpmsim` syncs to disk before it answers, if another process created the journal:

    python3 forced_names.py PROGRAM

The process that renamed the journal may have been killed before it synced the folder. The process
that created the folder may also have been killed before it synced the parent. Therefore each run
syncs the folder and its parent once, before it prints a response. The shim failing.c logs the
calls.
"""

import pathlib
import sys

from tests.common.faults import Tears
from tests.common.shims import ended

FORCING = ("fsync ", "fdatasync ", "rename ", "write output")
ABOVE = pathlib.Path("above")


def order(program, label, words, stdin=b""):
    """Prints the order in which a run syncs files, renames them and answers."""
    ending = ended(program.begins(words), stdin)
    calls = [call for call in program.noted() if call.startswith(FORCING)]
    print(f"{label}: status {ending.status}, {', '.join(calls) or 'nothing'}")


def main():
    program = Tears(sys.argv[1])
    ABOVE.mkdir()
    run = ["run", "--state", str(ABOVE / "state"), "-"]
    order(program, "a run that begins the device", run, b"do Startup 0\n")
    order(program, "the next run", run, b"do GetRandom 4\ndo GetRandom 4\n")
    order(program, "a power cycle", ["power", str(ABOVE / "state")])


main()
