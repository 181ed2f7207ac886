"""Commands that the completing layer answers: commands on sequences, which passwords authorize, and
commands that save and load contexts.
"""

from tpmsim.standard import ALG_NULL, CC, command, entry, number, on_handle, on_handles, RH_NULL
from tpmsim.standard import SHA256, sized

COMPLETE, HMAC_START, UPDATE, EVENT_COMPLETE, START = 0x13E, 0x15B, 0x15C, 0x185, 0x186
CONTEXT_LOAD, CONTEXT_SAVE = 0x161, 0x162

# The handles of the three sequences, and a PCR that events extend.
FIRST, SECOND, THIRD = range(0x8000_0008, 0x8000_000B)
PCR = 16


def start(algorithm: int = SHA256, auth: bytes = b"") -> bytes:
    """Returns TPM2_HashSequenceStart. With ALG_NULL it starts an event sequence."""
    return command(START, sized(auth) + number(algorithm, 2))


def hmac_start(
    key: int, algorithm: int = ALG_NULL, auth: bytes = b"", password: bytes = b""
) -> bytes:
    entries = [entry(hmac=password)]
    return on_handle(HMAC_START, key, sized(auth) + number(algorithm, 2), entries)


def update(handle: int, data: bytes, password: bytes = b"") -> bytes:
    return on_handle(UPDATE, handle, sized(data), [entry(hmac=password)])


def complete(
    handle: int, data: bytes = b"", hierarchy: int = RH_NULL, password: bytes = b""
) -> bytes:
    parameters = sized(data) + number(hierarchy, 4)
    return on_handle(COMPLETE, handle, parameters, [entry(hmac=password)])


def event_complete(
    pcr: int, handle: int, data: bytes = b"", passwords: tuple[bytes, ...] = (b"", b"")
) -> bytes:
    """Returns TPM2_EventSequenceComplete, with passwords for the PCR and for the sequence."""
    entries = [entry(hmac=it) for it in passwords]
    return on_handles(EVENT_COMPLETE, [pcr, handle], sized(data), entries)


def save(handle: int) -> bytes:
    return command(CONTEXT_SAVE, number(handle, 4))


def load(context: bytes) -> bytes:
    return command(CONTEXT_LOAD, context)


def flush(handle: int) -> bytes:
    return command(CC.FlushContext, number(handle, 4))
