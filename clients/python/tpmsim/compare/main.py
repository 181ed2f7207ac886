"""Play each script on tpmsim and on another TPM, and print where their responses differ.

TPM is one of
    swtpm                                   the program, started again for each script
    swtpm:path=SOCKET                       a running one, with its control channel at SOCKET.ctrl
    swtpm:host=HOST,port=N                  a running one, with its control channel at N + 1
    mssim:host=HOST,port=N                  one with Microsoft's protocol, the platform at N + 1
    device:FILE                             such as /dev/tpmrm0, which is not power-cycled

A running TPM keeps its state, so clear it before. A journal or log is a script too, if its device
was new. A command that was executed with the completing layer is played with that layer. The status
is 0 if nothing differs, 1 if something differs, and 2 if they cannot be compared.
"""

import argparse
import pathlib
import sys

from tpmsim.compare.play import Comparison, Report
from tpmsim.device import DeviceEnded, FileDevice, SimulatorDevice, StartedSwtpm, SwtpmDevice
from tpmsim.device import Transport, Unsupported
from tpmsim.model.player import BadLine


# The words that name a TPM.
FORMS = "device:PATH, swtpm, swtpm:path=PATH, or swtpm: or mssim: and host=HOST,port=PORT"


def other_tpm(words: str) -> Transport:
    """Returns the TPM that the words describe; raises ValueError if they describe none."""
    kind, _, rest = words.partition(":")
    if kind == "device" and rest:
        return FileDevice(rest)
    if words == "swtpm":
        return StartedSwtpm()
    given = {name: value for name, _, value in (it.partition("=") for it in rest.split(","))}
    if kind == "swtpm" and set(given) == {"path"}:
        return SwtpmDevice(given["path"], f"{given['path']}.ctrl")
    if set(given) == {"host", "port"} and given["port"].isdecimal():
        host, port = given["host"], int(given["port"])
        if kind == "swtpm":
            return SwtpmDevice((host, port), (host, port + 1))
        if kind == "mssim":
            return SimulatorDevice(host, port)
    raise ValueError(f"{words!r} names no TPM; give {FORMS}")


def compared(script: pathlib.Path, words: str) -> Report:
    with other_tpm(words) as other:
        return Comparison(other).play(script.read_bytes())


def told(script: pathlib.Path, report: Report) -> list[str]:
    lines = [f"{script}: {it}" for it in report.differences]
    for line, words, cause in report.not_comparable:
        because = "" if cause == line else f", because of line {cause}"
        lines.append(f"{script}: line {line}: not comparable: {words}{because}")
    own = sum(it.follows is None for it in report.differences)
    counts = f"{report.commands} commands, {own} differences"
    more = len(report.differences) - own, len(report.not_comparable)
    return [*lines, f"{script}: {counts}, {more[0]} that follow, {more[1]} not comparable"]


def run() -> int:
    words = argparse.ArgumentParser(
        prog="tpmsim-compare",
        description=__doc__,
        formatter_class=argparse.RawDescriptionHelpFormatter,
    )
    words.add_argument("scripts", nargs="+", metavar="SCRIPT", type=pathlib.Path)
    words.add_argument("--with", dest="other", required=True, metavar="TPM")
    given, status = words.parse_args(), 0
    for script in given.scripts:
        try:
            report = compared(script, given.other)
        except (OSError, ValueError, BadLine, DeviceEnded, Unsupported) as fault:
            print(f"tpmsim-compare: {script}: {type(fault).__name__}: {fault}", file=sys.stderr)
            return 2
        print("\n".join(told(script, report)))
        status |= bool(report.differences)
    return status


if __name__ == "__main__":
    sys.exit(run())
