"""Explains why a device in Python refused a command, from a log of the commands and responses so
far.
"""

from tpmsim.device import KeptDevice, Transport
from tpmsim.device.base import Executed, line
from tpmsim.explain import text
from tpmsim.explain.play import Event, Play


def log_of(device: Transport) -> bytes:
    """Returns the log of a device. For a kept device it is the journal, with all events since
    power-on, from any holder.
    """
    if isinstance(device, KeptDevice):
        return device.journal()
    begun = [it for it in device.trace[:1] if it.startswith(("# image ", "# state "))]
    return "".join(f"{it}\n" for it in [*begun, *lines_of(device)]).encode("ascii")


def lines_of(device: Transport) -> list[str]:
    found = list[str]()
    for event in device.events:
        if isinstance(event, Executed):
            found += [f"entropy {event.random.hex()}"] if event.random else []
            found += [line(event.buffer).rstrip(), f"# {event.response.hex()}"]
        else:
            found.append(event)
    return found


def why_refused(log: bytes) -> str:
    """Returns why the last refused command of a log was refused; empty if none was. If a response
    differs from the model's, returns only that difference, since the model is no longer reliable.
    """
    refused: Event | None = None
    for event in Play().events(log):
        if event.differences:
            words = "is not answered as by a device that was told this log alone; no refusal is explained"
            return f"line {event.line}: {text.name_of(event)} {words}"
        refused = event if event.refused else refused
    return "" if refused is None else "\n".join(text.reasons(refused)).rstrip()
