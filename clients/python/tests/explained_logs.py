"""Logs that the tests explain, and a caller that makes a mistake."""

from tpmsim.explain.play import Play
from tests.common import places

EXAMPLE = places.script("disk_unlock")


def lines_with(words):
    """Returns the numbers of the lines of the example that begin with these words."""
    lines = EXAMPLE.read_text().splitlines()
    return [at for at, it in enumerate(lines, 1) if it.startswith(words)]


# The line of the example at which the disk stays locked, and the earlier line that measured an
# unexpected text into PCR 7.
LOCKED, MOVED = lines_with("do Unseal")[-1], lines_with("do PCR_Event 00000007")[-1]


def events_of(*lines, answers=None):
    return list(Play(None, answers).events("\n".join(lines).encode()))


def last(*lines):
    """Adds TPM2_Startup before the lines, and returns the reason for the last one."""
    return events_of("do Startup 0", *lines)[-1].reason


def explained(device, tried=()):
    """Plays a device's trace, with values to try, and returns its last event with the explanation."""
    play = Play()
    play.tried = tried
    events = list(play.events("\n".join(device.trace).encode()))
    assert play.bad_line is None
    assert not any(it.differences for it in events)
    return events[-1]


def sessions_of(device):
    """Returns what the explanation knows about each session in a device's trace."""
    play = Play()
    list(play.events("\n".join(device.trace).encode()))
    return play.past.sessions.values()


def without_value(tpm):
    """Encrypts like a caller that leaves the authorization value out of the encryption key."""
    right = type(tpm).encrypted
    return lambda use, handle, parameters: right(tpm, use, None, parameters)
