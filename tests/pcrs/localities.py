"""Makes localities.tpm: extends and resets each PCR from each locality.

The table of TPM2_PCR_Extend in docs/table/pcrs.md says which locality can change which PCR. This
program contains a copy of that table.
"""

from tpmsim.standard import CC, command, digests, on_handle, selection, SHA1, SHA256
from tests.common.script import Script

# The PCRs, their use, and the localities that can extend and reset them.
ANY, NONE = range(5), ()
USES = (
    (range(0, 16), "of the platform's start", ANY, NONE),
    (range(16, 17), "for debugging", ANY, ANY),
    (range(17, 23), "of a dynamic launch", (2, 3, 4), (4,)),
    (range(23, 24), "for applications", ANY, ANY),
)
DIGESTS = digests((SHA1, bytes(20)))

script = Script(
    __name__,
    "Each of the 24 PCRs is extended and reset from each of the five localities, and then all are "
    "read.",
)
script.startup()


def change(code, pcrs, parameters, use, is_accepted):
    named = f"PCR {pcrs[0]}" + (f" to {pcrs[-1]}" if len(pcrs) > 1 else "")
    outcome = "SUCCESS" if is_accepted else "LOCALITY"
    buffers = [on_handle(code, pcr, parameters) for pcr in pcrs]
    script.command(f"TPM2_{code.name} of {named}, {use}: {outcome}", *buffers)


def read(algorithm, name):
    """Reads the 24 PCRs of a bank, eight at a time."""
    banks = (selection((algorithm, range(first, first + 8))) for first in (0, 8, 16))
    words = f"TPM2_PCR_Read of the {name} bank: SUCCESS"
    script.command(words, *(command(CC.PCR_Read, bank) for bank in banks))


for locality in range(5):
    script.chapter(f"Locality {locality}.")
    script.locality = locality
    script.lines.append(f"loc {locality}")
    for pcrs, use, extended_from, reset_from in USES:
        change(CC.PCR_Reset, pcrs, b"", use, locality in reset_from)
        change(CC.PCR_Extend, pcrs, DIGESTS, use, locality in extended_from)
    read(SHA1, "SHA-1")
read(SHA256, "SHA-256")
