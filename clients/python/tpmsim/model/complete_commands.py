"""Commands of the complete profile that use neither handles nor what the device holds: self-tests of
algorithms, tests of parameters, and digests with their tickets (TPM 2.0 Library, Part 3, sections
10.3, 15.4 and 30.3).
"""

from tpmsim.model.device_properties import ALGORITHMS
from tpmsim.model.general import Answer, Refusal
from tpmsim.model.nv_commands import BUFFER_BYTES
from tpmsim.model.object_rules import read_kind, read_parameters
from tpmsim.model.parameters import buffer, choice, Held, Parameters, Request, takes
from tpmsim.model.sequences import GENERATED_VALUE
from tpmsim.standard import digest, frames, mac, number, RH_NULL, SHA256, sized
from tpmsim.standard.handle_kinds import PRIMARY_HIERARCHIES

# The largest number of algorithms in a list, and an empty list.
MOST_ALGORITHMS, NO_ALGORITHMS = 64, number(0, 4)


def read_algorithms(fields: Parameters) -> list[int]:
    return [fields.number(2) for _ in range(fields.count(MOST_ALGORITHMS))]


def read_public_parameters(fields: Parameters) -> None:
    read_parameters(fields, read_kind(fields))


def ticketed(device: Held, hierarchy: int, found: bytes) -> bytes:
    """Returns a digest, and the ticket with which a restricted key may sign it. The ticket of
    TPM_RH_NULL is a NULL ticket.
    """
    if hierarchy == RH_NULL:
        return sized(found) + frames.ticket(frames.ST_HASHCHECK, RH_NULL, b"")
    check = mac(SHA256, device.proofs[hierarchy], number(frames.ST_HASHCHECK, 2) + found)
    return sized(found) + frames.ticket(frames.ST_HASHCHECK, hierarchy, check)


class Commands(Held):
    """The commands for a device with `proofs`."""

    @takes(read_algorithms)
    def incremental_self_test(self, request: Request, tested: list[int]) -> Answer:
        if lacks := [it for it in tested if it not in ALGORITHMS]:
            raise Refusal("VALUE/p1", "A1", algorithm=lacks[0])
        # All tests succeeded before the first command, so that no algorithm is left to be tested.
        return Answer(NO_ALGORITHMS)

    @takes(read_public_parameters)
    def test_parms(self, request: Request, tested: None) -> Answer:
        return Answer()

    @takes(buffer(BUFFER_BYTES), Parameters.hash, choice(4, PRIMARY_HIERARCHIES))
    def hash(self, request: Request, data: bytes, algorithm: int, hierarchy: int) -> Answer:
        # A restricted key must not sign the digest of data that look like the TPM's own.
        chosen = RH_NULL if data.startswith(GENERATED_VALUE) else hierarchy
        return Answer(ticketed(self, chosen, digest(algorithm, data)))
