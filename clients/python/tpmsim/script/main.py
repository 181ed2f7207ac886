"""Play a layered script, and write the plain one.

A layered script has the lines of a script (do, cmd, loc, wait, entropy, power), and also
    let NAME = COMMAND.FIELD    a field of the last response to a command, by its name in Part 3
    let NAME = "TEXT"           the bytes of a text
    auth HANDLE VALUE           the authorization value with which later lines compute
    $NAME, ${NAME}              the value of that name; $nonce is a new nonce each time
    s:$session:pin=VALUE:..     an entry whose HMAC is computed, with decrypt, encrypt, end

The device is the script's own, in this process, or the one at the socket of `tpmsim serve`. A fault
is reported on standard error with its line and column; then the status is 2, and nothing is
written.
"""

import argparse
import pathlib
import sys

from tpmsim.device import ServedDevice, Transport
from tpmsim.script.layer import BadScript, Layer
from tpmsim.script.own_device import own_device

FAULT = 2


def read(path: str) -> str:
    """Reads a script from a file, or from standard input."""
    data = sys.stdin.buffer.read() if path == "-" else pathlib.Path(path).read_bytes()
    return data.decode("utf-8", "surrogateescape")


def written(lines: list[str], path: str) -> None:
    """Writes lines to a file, or to standard output."""
    data = "".join(f"{it}\n" for it in lines).encode("utf-8", "surrogateescape")
    if path == "-":
        sys.stdout.buffer.write(data)
    else:
        pathlib.Path(path).write_bytes(data)


def device_of(socket: str | None) -> Transport:
    """Returns the script's own device, or the one that a socket serves."""
    return own_device() if socket is None else ServedDevice(socket)


def run() -> int:
    """Runs the program, and returns its status."""
    words = argparse.ArgumentParser(
        prog="tpmsim-script",
        description=__doc__,
        formatter_class=argparse.RawDescriptionHelpFormatter,
    )
    words.add_argument("script", metavar="SCRIPT", help="A file, or - for standard input")
    words.add_argument(
        "-o",
        "--output",
        default="-",
        metavar="FILE",
        help="Write to FILE [default: standard output]",
    )
    words.add_argument("--socket", metavar="PATH", help="Use the device served at PATH")
    words.add_argument("--trace", action="store_true", help="Write each trace, as a comment")
    given = words.parse_args()
    try:
        with device_of(given.socket) as device:
            plain = list(Layer(device, given.trace).plain(read(given.script)))
        written(plain, given.output)
    except BadScript as fault:
        print(f"tpmsim-script: {given.script}: {fault}", file=sys.stderr)
        return FAULT
    except OSError as fault:
        where = fault.filename or given.socket or given.script
        print(f"tpmsim-script: {where}: {fault.strerror or fault}", file=sys.stderr)
        return FAULT
    return 0


if __name__ == "__main__":
    sys.exit(run())
