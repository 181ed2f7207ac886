"""List the refusals of the TPM, and make each of them happen.

Usage: tpmsim-refusals [OPTIONS] [COMMAND [CHECK [CODE]]]

Without arguments, print all refusals: the command, the check that refuses it, the response code in
hex and by its name, and the kind. With COMMAND, CHECK or CODE, print only those. If one refusal is
left, print a script in which it happens, with the reason in comments.

COMMAND is a name such as NV_Write, or ? for a buffer that is no command. CHECK is a check of
docs/table/order_of_refusals.md, such as G6 or A2. CODE is a name such as HANDLE/h2.

Options:
      --only KIND   Print only the refusals of this kind: state, value, session or form
      --state FILE  Write the state text of a device to FILE, and print only the refused command
  -h, --help        Print help

The list has the commands of both profiles (docs/table/README.md). Some commands are served only by
a device of the complete profile; a script of such a command begins with a comment that says so.

The kinds: state depends on what the device is or contains, so a correct client can get it; value
depends on a parameter's value; session is like state, in the second or third entry of a command;
form depends on the bytes alone.

The exit status is 0, or 2 if there is no such refusal or FILE cannot be written.
"""

import argparse
import sys

from tpmsim.device.base import line_in_bytes
from tpmsim.device.told import ModelDevice
from tpmsim.explain.main import tell, Usage
from tpmsim.explain.of_device import log_of, why_refused
from tpmsim.faults import TpmsimError
from tpmsim.refusals.arguments import Arguments
from tpmsim.refusals.made import made, Refusal, shortened
from tpmsim.refusals.words import line_of, sentence_of
from tpmsim.refuse.state_file import write_state
from tpmsim.standard import Profile
from tpmsim.standard.rows import AnyRow, every_row, Kind, rows_named

NAME = "tpmsim-refusals"


def arguments() -> Arguments:
    """Returns the arguments of this program."""
    words = Arguments(__doc__)
    words.add_argument("command", nargs="?", default="")
    words.add_argument("check", nargs="?", default="")
    words.add_argument("code", nargs="?", default="")
    words.add_argument("--only", choices=[it.value for it in Kind])
    words.add_argument("--state", metavar="FILE")
    return words


def rows_asked(given: argparse.Namespace) -> list[AnyRow]:
    """Returns the refusals that the arguments name."""
    if given.command:
        found = rows_named(given.command, given.check, given.code)
    else:
        found = list(every_row())
    return [it for it in found if given.only in (None, it.kind.value)]


def reason_of(refused: Refusal) -> str:
    """Returns why the last command of a refusal's script is refused. A script for a device of the
    complete profile is explained from the state before that command.
    """
    script = refused.script
    if refused.row.profile == Profile.SYMMETRIC:
        return why_refused("".join(f"{it}\n" for it in script).encode("ascii"))
    with ModelDevice() as device:
        device.restore(refused.state)
        device.execute(refused.buffer)
        _, line, words = why_refused(log_of(device)).partition(": ")
    return f"line {len(script)}{line}{words}" if words else ""


def script_of(refused: Refusal) -> list[str]:
    """Returns a script of the refusal, with the reason in comments before its last command."""
    if refused.far:
        raise Usage("no script reaches this refusal; --state FILE writes a device that gives it")
    script, head = refused.script, list[str]()
    if refused.row.profile == Profile.COMPLETE:
        head = ["# A script for a device of the complete profile: tpmsim run --complete"]
    words = reason_of(refused) or sentence_of(refused.row)
    reason = (f"# {it}".rstrip() for it in words.splitlines())
    return [*head, *script[:-1], *reason, script[-1]]


def said(given: argparse.Namespace) -> list[str]:
    """Returns the lines that the program prints."""
    rows = rows_asked(given)
    if len(rows) != 1:
        if given.state:
            raise Usage(f"--state needs one refusal, and {len(rows)} have these names")
        return [line_of(it) for it in rows]
    refused = shortened(made(rows[0]))
    if not given.state:
        return script_of(refused)
    write_state(given.state, refused.state)
    return [line_in_bytes(refused.buffer)]


def main(*words: str) -> int:
    """Runs the program with these arguments, and returns its status."""
    known = arguments()
    try:
        given = known.parse_args(list(words))
        tell(known.help_text if given.help else "\n".join(said(given)))
    except OSError as fault:
        print(f"{NAME}: {fault.filename}: {fault.strerror}", file=sys.stderr)
        return 2
    except TpmsimError as fault:
        print(f"{NAME}: {fault}", file=sys.stderr)
        return 2
    return 0


def run() -> None:
    """Runs the program with the arguments of the process."""
    sys.exit(main(*sys.argv[1:]))


if __name__ == "__main__":
    run()
