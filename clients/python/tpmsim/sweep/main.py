"""Runs COMMAND once for each refusal that its TPM could answer, and reports what it does.

First COMMAND runs as it is, with a device that it reaches, and each command that it sends is
recorded. Then COMMAND runs again for each command and each row of the table that this command can
meet after a change of the device's state alone: an index is locked, a slot is taken, a session is
gone, an authorization value is another. Before the command the state is changed so, and the device
refuses. It stays changed until the run ends. If an HMAC covers a Name that the change affects, the
state is changed from the start of the run, so that COMMAND knows the new Name. Also RETRY, YIELDED,
TESTING, CANCELED and NV_RATE are answered once instead of each command; these are marked as faked.
"""

from __future__ import annotations

import argparse
import pathlib
import sys
from typing import NoReturn

from tpmsim.caller import Caller
from tpmsim.device import BadImage, BadState, Device, DeviceEnded, KeptDevice
from tpmsim.faults import BadValue, TpmsimError
from tpmsim.model import state_text
from tpmsim.refuse.state_file import write_state
from tpmsim.sweep import page, report
from tpmsim.sweep.demand import begun_changed, Demand, NotRefused, run_demanded
from tpmsim.sweep.refusals import Only, planned
from tpmsim.sweep.runs import Settings
from tpmsim.sweep.sweeping import begun, go_on, NoSweep, Sweep, unrefused

NAME = "tpmsim-sweep"
FOUND, WRONG, NOTHING_REFUSED, INTERRUPTED = 1, 2, 125, 130

# How long a run lasts at most, in seconds, unless --timeout says otherwise.
SECONDS = 30.0

USAGE = f"""Usage: {NAME} [OPTION]... -- COMMAND [ARGUMENT]...
       {NAME} [OPTION]... --refuse NAME:CHECK[:CODE][:N] -- COMMAND [ARGUMENT]...
"""

HELP = f"""{USAGE}
{__doc__}
Options:
  --state DIR           start each run with the device in this folder, which stays as it is
  --from FILE           start each run with the device of this state text
  --only NAME[:CHECK]   refuse only this command, by this check, or by faked warnings as in
                        NV_Read:faked; may be given several times
  --limit N             make at most N runs with a refusal
  --timeout SECONDS     end a run after these seconds; it hangs. Without this, {SECONDS:g}
  --copy DIR            make each run in its own copy of this folder
  -j, --jobs N          make N runs at once; COMMAND must then write to its own files, see --copy
  --json                print the report as JSON
  --html FILE           also write the report as a page
  --refuse NAME:CHECK[:CODE][:N]  instead run COMMAND once, with this refusal
  --from-start          with --refuse, change the state before COMMAND starts
  --save FILE           with --from-start, also write the changed state text to FILE
  -h, --help            print this help

Without --state and --from, each run starts with a new device after TPM2_Startup.

With --refuse, COMMAND has this program's own input and output. The N-th command NAME, by default
the first, is refused by CHECK, with CODE if the check has several codes, as in NV_Read:A2 or
Unseal:G9:LOCKOUT:2. GetRandom:faked:RETRY, and likewise with another warning, is a faked answer.
With --from-start, COMMAND first runs once unrefused, with its output dropped, so that the command
is known; it then finds a device whose Names have changed too. `tpmsim restore DIR FILE` puts the
state text of --save into a folder, which hosts of other protocols serve.

COMMAND finds the device by these variables of its environment:
  TPM2TOOLS_TCTI, TCTI  swtpm:host=127.0.0.1,port=PORT, for libtss2
  TPMSIM_SOCKET         a Unix socket for plain commands, as of `tpmsim serve`
  TPMSIM_PORT           PORT, of swtpm's protocol; its control channel is at PORT + 1
  TPM_COMMAND_PORT      the port of Microsoft's simulator protocol, and with TPM_PLATFORM_PORT,
                        TPM_SERVER_NAME, TPM_SERVER_TYPE and TPM_INTERFACE_TYPE for IBM's TSS
With other modules of libtss2: TPM2TOOLS_TCTI="mssim:port=$TPM_COMMAND_PORT" or
TPM2TOOLS_TCTI="cmd:socat - UNIX-CONNECT:$TPMSIM_SOCKET". With Python:
ServedDevice(os.environ["TPMSIM_SOCKET"]).

Findings:
  dies                           a signal ends COMMAND, though not without the refusal
  hangs                          COMMAND does not end in time
  success although refused       the status is 0, and the command was not sent again with success
  goes on as if nothing had been COMMAND sends what it sends unrefused, with success
  leaves a session loaded        more sessions than unrefused; or, unrefused, any session at all
  leaves an object loaded        more transient objects than unrefused

The status is 0 without findings, {FOUND} with findings, and {WRONG} for a wrong option, or if COMMAND fails
unrefused. With --refuse it is COMMAND's, or {NOTHING_REFUSED} if nothing was refused.

Examples:
  {NAME} -- tpm2_getrandom 8
  {NAME} --refuse GetRandom:faked:RETRY -- tpm2_getrandom 8
"""


class Wrong(TpmsimError):
    """The arguments are wrong; the message says how."""


class Words(argparse.ArgumentParser):
    """The options, of which faults are raised as Wrong."""

    def error(self, message: str) -> NoReturn:
        raise Wrong(message)


def parser() -> Words:
    words = Words(prog=NAME, add_help=False, allow_abbrev=False)
    words.add_argument("--state")
    words.add_argument("--from", dest="text")
    words.add_argument("--only", action="append", default=[], type=only_of)
    words.add_argument("--limit", type=natural)
    words.add_argument("--timeout", type=natural, default=SECONDS)
    words.add_argument("--copy")
    words.add_argument("-j", "--jobs", type=natural, default=1)
    words.add_argument("--json", action="store_true")
    words.add_argument("--html")
    words.add_argument("--refuse", type=demand_of)
    words.add_argument("--from-start", action="store_true")
    words.add_argument("--save")
    return words


def demand_of(word: str) -> Demand:
    """Returns a refusal in words; raises ArgumentTypeError if there is none such."""
    try:
        return Demand.of(word)
    except BadValue as fault:
        raise argparse.ArgumentTypeError(str(fault)) from None


def natural(word: str) -> int:
    """Returns a number from 1 on; raises ArgumentTypeError for any other word."""
    if not word.isdecimal() or int(word) < 1:
        raise argparse.ArgumentTypeError(f"{word!r} is no number from 1 on")
    return int(word)


def only_of(word: str) -> Only:
    """Returns the limit to a command; raises ArgumentTypeError if it has no such refusal."""
    try:
        return Only.of(word)
    except BadValue as fault:
        raise argparse.ArgumentTypeError(str(fault)) from None


def text_in(file: str) -> bytes:
    """Returns the state text in a file; raises Wrong if the file contains none."""
    text = pathlib.Path(file).read_bytes()
    if fault := state_text.fault_of(text):
        raise Wrong(f"{file} is no state text: {fault}")
    return text


def state_of(state: str | None, text: str | None) -> bytes:
    """Returns the state text with which each run starts."""
    if state is not None and text is not None:
        raise Wrong("--state and --from name two devices")
    if state is not None:
        if not pathlib.Path(state, "journal").is_file():
            raise Wrong(f"{state} contains no device")
        with KeptDevice(state) as kept:
            return bytes(kept.snapshot())
    if text is not None:
        return text_in(text)
    with Device() as device:
        Caller(device).start_up()
        return bytes(device.snapshot())


def tell(lines: list[str]) -> None:
    print("\n".join(lines), flush=True)


def settings_of(given: argparse.Namespace, words: tuple[str, ...]) -> Settings:
    """Returns how each run is made."""
    if given.copy is not None and not pathlib.Path(given.copy).is_dir():
        raise Wrong(f"{given.copy} is no folder")
    return Settings(words, state_of(given.state, given.text), given.timeout, given.copy)


def sweep_of(given: argparse.Namespace, settings: Settings) -> Sweep:
    """Sweeps the client, and prints or writes what the options ask for."""
    words, sweep = settings.words, begun(settings)
    refusals = planned(sweep.base.events, given.only, given.limit)
    if given.html is not None:
        write_page(given.html, words, sweep)  # before the other runs, to see that it can be written
    if given.json:
        go_on(sweep, settings, refusals, given.jobs)
        print(report.as_json(words, sweep))
    else:
        tell(report.of_base(sweep))
        go_on(sweep, settings, refusals, given.jobs, lambda run: tell(report.of_run(run)))
        print(report.summary(sweep))
    if given.html is not None:
        write_page(given.html, words, sweep)
    return sweep


def write_page(file: str, words: tuple[str, ...], sweep: Sweep) -> None:
    pathlib.Path(file).write_text(page.page_of(words, sweep), "utf-8")


def check_demand(given: argparse.Namespace) -> None:
    """Raises Wrong if the options about one refusal do not fit the others."""
    if given.refuse is None and (given.from_start or given.save):
        raise Wrong("--from-start and --save need --refuse")
    if given.save and not given.from_start:
        raise Wrong("--save needs --from-start")
    others = given.only, given.limit, given.jobs != 1, given.json, given.html
    if given.refuse is not None and any(others):
        raise Wrong("--refuse makes one run, without --only, --limit, --jobs, --json and --html")


def demanded(given: argparse.Namespace, settings: Settings) -> int:
    """Runs the client with one refusal, reports the refusal, and returns the client's status."""
    demand = given.refuse
    if given.from_start:
        demand = begun_changed(demand, unrefused(settings))
    if given.save:
        write_state(given.save, demand.start)
    status, refusal = run_demanded(settings, demand)
    print(f"{NAME}: refused {refusal}", file=sys.stderr)
    return status


def main(*words: str) -> int:
    at = words.index("--") if "--" in words else len(words)
    options, client = words[:at], words[at + 1 :]
    if "--help" in options or "-h" in options:
        print(HELP, end="")
        return 0
    try:
        given = parser().parse_args(options)
        if not client:
            raise Wrong("there is no COMMAND after --")
        check_demand(given)
        settings = settings_of(given, client)
        if given.refuse is not None:
            return demanded(given, settings)
        sweep = sweep_of(given, settings)
    except NotRefused as fault:
        print(f"{NAME}: nothing was refused: {fault}", file=sys.stderr)
        return NOTHING_REFUSED
    except OSError as fault:
        where = f"{fault.filename}: {fault.strerror}" if fault.filename else f"{fault}"
        print(f"{NAME}: {where}", file=sys.stderr)
        return WRONG
    except (Wrong, NoSweep, BadState, BadImage, DeviceEnded) as fault:
        print(f"{NAME}: {fault}", file=sys.stderr)
        if isinstance(fault, Wrong):
            print(f"Try '{NAME} --help' for more information.", file=sys.stderr)
        return WRONG
    except KeyboardInterrupt:
        return INTERRUPTED
    return FOUND if sweep.count else 0


def run() -> None:
    sys.exit(main(*sys.argv[1:]))


if __name__ == "__main__":
    run()
