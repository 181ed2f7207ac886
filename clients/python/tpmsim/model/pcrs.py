"""PCRs: their first values, who may change them, and their commands (TPM 2.0 Library, Part 1,
section 17; Part 3, section 22). docs/table lists the choices that these sections leave to each TPM.
"""

from typing import Sequence

from tpmsim.model.general import Answer, Refusal
from tpmsim.model.parameters import buffer, Held, Parameters, Request, Selection, takes
from tpmsim.standard import digest, digest_bytes, frames, HASHES, number, PCRS, RH_NULL, SHA1
from tpmsim.standard import SHA256, sized

DYNAMIC_PCRS = range(17, 23)
LOCALITIES = range(5)

# The largest number of values in a response of TPM2_PCR_Read, the largest number of digests in a
# list, and the largest size of an event.
VALUES_AT_ONCE, MOST_DIGESTS = 8, 2
EVENT_BYTES = 1024

# The largest value of the update counter.
LAST_COUNTER = 2**64 - 1


def starting_value(algorithm: int, pcr: int) -> bytes:
    """Returns all ones for the PCRs of a dynamic launch, and zeros for the others."""
    byte = b"\xff" if pcr in DYNAMIC_PCRS else b"\x00"
    return byte * digest_bytes(algorithm)


def extended_from(pcr: int) -> Sequence[int]:
    return range(2, 5) if pcr in DYNAMIC_PCRS else LOCALITIES


def reset_from(pcr: int) -> Sequence[int]:
    return LOCALITIES if pcr in (16, 23) else (4,) if pcr in DYNAMIC_PCRS else ()


def starting_banks() -> dict[int, list[bytes]]:
    return {alg: [starting_value(alg, pcr) for pcr in PCRS] for alg in HASHES}


def read_digests(fields: Parameters) -> list[tuple[int, bytes]]:
    algorithms = (fields.hash() for _ in range(fields.count(MOST_DIGESTS)))
    return [(it, fields.take(digest_bytes(it))) for it in algorithms]


class Commands(Held):
    """The commands on PCRs, for a device with `banks` and their `update_counter`."""

    def values(self, selection: list[tuple[int, list[int]]]) -> bytes:
        return b"".join(self.banks[bank][pcr] for bank, pcrs in selection for pcr in pcrs)

    @takes(Parameters.selection)
    def pcr_read(self, request: Request, asked: Selection) -> Answer:
        """Returns the update counter, the selection of the returned values, and these values."""
        selection: list[tuple[int, list[int]]] = []
        values: list[bytes] = []
        for algorithm, pcrs in asked:
            room = VALUES_AT_ONCE - len(values)
            pcrs = pcrs[:room]
            selection.append((algorithm, pcrs))
            values += [sized(self.banks[algorithm][pcr]) for pcr in pcrs]
        counter = number(self.update_counter % 2**32, 4)
        listed = number(len(values), 4) + b"".join(values)
        return Answer(counter + frames.selection(*selection) + listed)

    def check_counter(self, changes: int) -> None:
        """Refuses changes that the update counter cannot count."""
        if self.update_counter + changes > LAST_COUNTER:
            raise Refusal("FAILURE", "A2")

    def extend(self, handle: int, values: list[tuple[int, bytes]], locality: int) -> None:
        """Extends the PCR in the bank of each digest. Has no effect for TPM_RH_NULL."""
        if handle == RH_NULL:
            return
        if locality not in (allowed := extended_from(handle)):
            raise Refusal("LOCALITY", "A1", pcr=handle, allowed=allowed, locality=locality)
        self.check_counter(len(values))
        for algorithm, value in values:
            bank = self.banks[algorithm]
            bank[handle] = digest(algorithm, bank[handle] + value)
            self.update_counter += 1

    @takes(read_digests)
    def pcr_extend(self, request: Request, values: list[tuple[int, bytes]]) -> Answer:
        self.extend(request.handles[0], values, request.locality)
        return Answer()

    @takes(buffer(EVENT_BYTES))
    def pcr_event(self, request: Request, data: bytes) -> Answer:
        values = [(algorithm, digest(algorithm, data)) for algorithm in (SHA1, SHA256)]
        self.extend(request.handles[0], values, request.locality)
        return Answer(frames.digests(*values))

    @takes()
    def pcr_reset(self, request: Request) -> Answer:
        (pcr,) = request.handles
        if request.locality not in (allowed := reset_from(pcr)):
            raise Refusal("LOCALITY", "A1", pcr=pcr, allowed=allowed, locality=request.locality)
        self.check_counter(len(self.banks))
        for algorithm, bank in self.banks.items():
            bank[pcr] = bytes(digest_bytes(algorithm))
            self.update_counter += 1
        return Answer()
