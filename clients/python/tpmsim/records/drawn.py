"""Recovers the random bytes of a command from its response, if a log does not record them: the
bytes that the command requested, and the nonces of its sessions. Therefore logs of other
devices, which contain only commands and responses, can be replayed.
"""

from tpmsim.model.sequence_commands import AUTHORIZED, HMAC_START
from tpmsim.model.state import SECRET_BYTES
from tpmsim.standard import CC, Fields, frames, HEADER_BYTES, NUMBERED, Short

# The number of random bytes that a command draws before the nonces, and that no response shows.
HIDDEN: dict[int, int] = {CC.Clear: 3 * SECRET_BYTES}


def drawn_of(buffer: bytes, response: bytes, size: int) -> bytes:
    """Returns `size` random bytes; bytes that the response does not show are zeros."""
    try:
        shown = shown_in(int.from_bytes(buffer[6:HEADER_BYTES], "big"), Fields(response))
    except Short:
        shown = b""
    return shown[:size].ljust(size, b"\0")


def answers_handle(code: int) -> bool:
    """Whether a successful response to a command has a handle."""
    return NUMBERED[code].answers_handle if code in NUMBERED else code == HMAC_START


def shown_in(code: int, fields: Fields) -> bytes:
    """Returns the random bytes that a response shows."""
    tag = fields.number(2)
    fields.take(HEADER_BYTES - 2)
    if not fields.data or code not in NUMBERED and code not in AUTHORIZED:
        return b""
    if answers_handle(code):
        fields.number(4)
    parameters = Fields(fields.take(fields.number(4)) if tag == frames.SESSIONS else fields.data)
    drawn = bytes(HIDDEN.get(code, 0))
    if code in (CC.GetRandom, CC.StartAuthSession):
        drawn = parameters.sized()
    while tag == frames.SESSIONS and fields.data:
        drawn += fields.sized()
        fields.number(1)
        fields.sized()
    return drawn
