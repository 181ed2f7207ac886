"""Functions for the tests of a device that Python keeps in a folder. The first argument of the
program is the shared library.
"""

import hashlib
import os
import signal
import sys

os.environ["TPMSIM_LIBRARY"] = sys.argv[1]

from tpmsim.caller import Caller
from tpmsim.device import KeptDevice
from tpmsim.standard import CC, frames, SHA256

DIGEST, PCR = b"Z" * 32, 16
EXTEND = frames.on_handle(CC.PCR_Extend, PCR, frames.digests((SHA256, DIGEST)))


class Waits(BaseException):
    """Raised if a call takes too long."""


def raise_waits(*_):
    raise Waits


signal.signal(signal.SIGALRM, raise_waits)


def within(seconds, act):
    """Returns the result of `act`. Raises Waits if it takes more than this many seconds."""
    signal.setitimer(signal.ITIMER_REAL, seconds)
    try:
        return act()
    finally:
        signal.setitimer(signal.ITIMER_REAL, 0)


def started(folder):
    """Returns the device in a folder, after a power cycle and TPM2_Startup."""
    device = KeptDevice(folder)
    device.power_cycle()
    Caller(device).start_up()
    return device


def extended(value):
    return hashlib.sha256(value + DIGEST).digest()


def extend(device):
    answered = device.execute(EXTEND)
    assert answered.check == "ok", answered


def value_of(device):
    return Caller(device).call("PCR_Read", pcrSelectionIn=[(SHA256, [PCR])])["pcrValues"][0]
