"""Count which refusals of the TPM logs have met, and which never.

Usage: tpmsim-coverage [OPTIONS] LOG..

Print a line for each command that the logs contain: how often the TPM accepted it, and how many of
its refusals the logs have met, by kind. The kinds: state depends on what the device is or contains,
so a correct client can get it; value depends on a parameter's value; session is like state, in the
second or third entry of a command; form depends on the bytes alone. Leave out refusals for which a
counter of the TPM has to reach 2^64.

LOG is any log that tpmsim-explain reads: a script, a journal of a device in a folder, a log of
tpmsim serve, or the trace of a device in Python; - is standard input. A folder stands for all
journals of the device in it: journal, journal.1 and so on.

Options:
      --only KIND   Count only the refusals of this kind: state, value, session or form
      --never       List each counted refusal that was never met
      --least N     Exit with status 1 if fewer than N percent of the counted refusals were met
      --html FILE   Write a page with a square for each refusal
      --json        Print the counts of all refusals in JSON
  -h, --help        Print help

The exit status is 0; 1 by --least; 2 if an argument or a log is wrong.
"""

import argparse
import pathlib
import re
import sys

from tpmsim.coverage.met import Met
from tpmsim.coverage.page import page_of
from tpmsim.coverage.report import json_of, percent_of, table
from tpmsim.explain.main import read, tell, Usage
from tpmsim.faults import TpmsimError
from tpmsim.refusals.arguments import Arguments
from tpmsim.standard.rows import Kind

NAME = "tpmsim-coverage"

# The journals in the folder of a device (docs/SERVE.md).
JOURNAL = re.compile(r"journal(\.[1-9]\d?)?")


def arguments() -> Arguments:
    """Returns the arguments of this program."""
    words = Arguments(__doc__)
    words.add_argument("logs", nargs="*")
    words.add_argument("--only", choices=[it.value for it in Kind])
    words.add_argument("--never", action="store_true")
    words.add_argument("--least", type=float)
    words.add_argument("--html", metavar="FILE")
    words.add_argument("--json", action="store_true")
    return words


def files_of(log: str) -> list[str]:
    """Returns the journals in a folder, or the log itself; raises Usage if a folder has none."""
    folder = pathlib.Path(log)
    if not folder.is_dir():
        return [log]
    found = sorted(str(it) for it in folder.iterdir() if JOURNAL.fullmatch(it.name))
    if not found:
        raise Usage(f"{log} has no journal of a device")
    return found


def met_in(logs: list[str]) -> Met:
    """Counts logs; raises Usage if one cannot be read to its end."""
    if not logs:
        raise Usage("LOG is missing")
    met = Met()
    for name in [file for log in logs for file in files_of(log)]:
        if fault := met.add(read(name)):
            raise Usage(f"{name}: {fault}")
    return met


def report(given: argparse.Namespace) -> int:
    """Prints the report, and returns the status."""
    only = None if given.only is None else Kind(given.only)
    met = met_in(given.logs)
    if given.html:
        pathlib.Path(given.html).write_text(page_of(met, only), "utf-8")
    tell(json_of(met, only) if given.json else "\n".join(table(met, only, given.never)))
    return int(given.least is not None and percent_of(met, only) < given.least)


def main(*words: str) -> int:
    """Runs the program with these arguments, and returns its status."""
    known = arguments()
    try:
        given = known.parse_args(list(words))
        if given.help:
            tell(known.help_text)
            return 0
        return report(given)
    except OSError as fault:
        print(f"{NAME}: {fault.filename}: {fault.strerror}", file=sys.stderr)
    except TpmsimError as fault:
        print(f"{NAME}: {fault}", file=sys.stderr)
    return 2


def run() -> None:
    """Runs the program with the arguments of the process."""
    sys.exit(main(*sys.argv[1:]))


if __name__ == "__main__":
    run()
