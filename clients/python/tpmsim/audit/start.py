"""The start of a log: a device, and what is known about its history. For a new device nothing is
known; for a device from an image or a state text, the contents of that text are known.
"""

import hashlib
from dataclasses import dataclass, field, replace

from tpmsim import records
from tpmsim.model import state
from tpmsim.model.completion import Completion
from tpmsim.model.history import History, LiveSession
from tpmsim.model.image import Fault
from tpmsim.model.machine import Model
from tpmsim.standard import HIERARCHIES, nv


@dataclass
class Start:
    """The start of a log. `text` names the source of the device, such as "the image"; empty for a
    new device.
    """

    device: Model
    history: History
    words: str
    text: str = ""
    layer: Completion = field(default_factory=Completion)


def new() -> Start:
    return Start(Model(), History(), "a new device")


def of_text(text: bytes) -> Start:
    """Opens the device from an image or a state text; raises Fault for other bytes."""
    begun = records.opened(text)
    history = history_of(begun.device)
    held = "state text" if begun.is_state else "image"
    if begun.is_state:
        add_state(history, begun.device)
    digest = hashlib.sha256(text).hexdigest()
    article = "a" if begun.is_state else "an"
    words = f"the device of {article} {held}, whose SHA-256 is {digest}"
    return Start(begun.device, history, words, f"the {held}", begun.layer)


def history_of(device: Model) -> History:
    """Returns the history that follows from the state that a device keeps while it has no power."""
    history = History()
    for handle in (*HIERARCHIES, *device.objects, *device.indices):
        history.auth_values.values[handle] = device.auth_value(handle)
    for handle, index in device.indices.items():
        if index.public.kind == nv.Type.COUNTER and index.data:
            history.counters.values[handle] = int.from_bytes(index.data, "big")
    history.counters.largest = device.largest_counter
    if device.saved == state.Saved.STATE:
        for bank, values in device.saved_banks.items():
            history.pcrs.saved[bank][: len(values)] = values
    return history


def add_state(history: History, device: Model) -> None:
    """Adds the PCRs and the sessions, which do not survive a power cycle, to the history."""
    history.pcrs.values = {bank: list(values) for bank, values in device.banks.items()}
    history.pcrs.updates = device.update_counter
    for handle, it in device.sessions.items():
        bound = (it.bind, it.bind_auth, it.bind_protection) if it.is_bound else None
        kinds = it.kind, it.algorithm, it.cipher
        live = LiveSession(*kinds, bound, it.key, it.nonce_tpm, replace(it.policy))
        history.sessions.live[handle] = live


def of_log(script: bytes, given: bytes | None) -> Start:
    """Returns the device with which a log starts: the one in the log's head or, if the log has no
    head, the one in `given`, an image or a state text. If there is neither, the device is new.
    Raises Fault if the head or `given` is invalid, if only one of them is a state text, or if they
    belong to different devices.
    """
    begun = first_of(script)
    if begun is None:
        return new() if given is None else of_text(given)
    if given is not None:
        own = records.opened(begun.content)
        if own.is_state != records.opened(given).is_state or not records.goes_on(own.device, given):
            raise Fault("of another device than the log begins with")
    return of_text(begun.content)


def first_of(script: bytes) -> records.Begin | None:
    """Returns the head of a log, if the log begins with one, perhaps after comments."""
    for step in records.steps_of(script):
        if isinstance(step, records.Begin):
            return step
        if not isinstance(step, records.Comment):
            return None
    return None


def has_answers(script: bytes) -> bool:
    """Whether a log records the response to its first command, as a journal does. This is also true
    for a log that has a head but no commands.
    """
    commands = (it for it in records.steps_of(script) if isinstance(it, records.Command))
    first = next(commands, None)
    if first is None:
        return first_of(script) is not None
    return first.mark is not None or bool(first.said)
