"""A measured boot: each piece of software is measured into a PCR before it runs, and its digest
goes to a log. A verifier replays the log, and trusts the log if the resulting PCR values are the
same.
"""

import hashlib

from tpmsim.caller import Caller
from tpmsim.device import Device
from tpmsim.standard import SHA256

BOOT = [
    (0, b"firmware 1.0"),
    (7, b"secure boot is on"),
    (4, b"boot loader"),
    (11, b"kernel and initrd"),
    (11, b"enter-initrd"),
]
PCRS = 0, 4, 7, 11
Log = list[tuple[int, bytes]]


def measured(tpm: Caller) -> Log:
    """Measures a boot, and returns its log: the PCR and the digest of each measurement."""
    log = []
    for pcr, data in BOOT:
        digests = tpm.call("PCR_Event", pcr, eventData=data)["digests"]
        log += [(pcr, it.digest) for it in digests if it.algorithm == SHA256]
    return log


def replayed(log: Log) -> list[bytes]:
    """Returns the values that the PCRs have after the measurements of a log."""
    values = dict.fromkeys(PCRS, bytes(32))
    for pcr, digest in log:
        values[pcr] = hashlib.sha256(values[pcr] + digest).digest()
    return [values[pcr] for pcr in PCRS]


def verdict(log: Log, values: list[bytes]) -> str:
    """Returns the conclusion of a verifier who replays a log."""
    wrong = [str(pcr) for pcr, *both in zip(PCRS, replayed(log), values) if both[0] != both[1]]
    return f"PCR {', '.join(wrong)} differ" if wrong else "the PCRs are those of the log"


with Device() as device:
    tpm = Caller(device)
    tpm.start_up()
    log = measured(tpm)
    values = tpm.call("PCR_Read", pcrSelectionIn=[(SHA256, list(PCRS))])["pcrValues"]
    print(f"{len(log)} measurements: {verdict(log, values)}")
    print(f"Without the boot loader's: {verdict(log[:2] + log[3:], values)}")
    print(f"In another order: {verdict(log[:3] + log[:2:-1], values)}")
    forged = [
        (pcr, hashlib.sha256(b"firmware 1.1").digest() if pcr == 0 else it) for pcr, it in log
    ]
    print(f"With another firmware: {verdict(forged, values)}")
