"""The device at the start of a log: either the device in an image, which was just powered on, or
the device in a state text, which continues where it stopped.
"""

from __future__ import annotations

from dataclasses import dataclass

from tpmsim.model import image, state_text
from tpmsim.model.completion import Completion
from tpmsim.model.machine import Model
from tpmsim.standard import Profile


@dataclass
class Opened:
    """A device, and what the completing layer remembers about it."""

    device: Model
    layer: Completion
    is_state: bool = False


def is_state_text(text: bytes) -> bool:
    """Returns whether the text begins like a state text."""
    return text.startswith(state_text.MAGIC)


def opened(text: bytes, start: int = 0) -> Opened:
    """Opens an image or a state text; raises image.Fault for other bytes. `start` is the number by
    which a completing layer that starts here identifies its contexts.
    """
    if not is_state_text(text):
        return Opened(image.open_image(text, profiles=Profile), Completion(start))
    device, layer = state_text.open_state(text)
    return Opened(device, Completion.of(layer) if layer else Completion(start), True)


def goes_on(device: Model, text: bytes) -> bool:
    """Whether an image or a state text belongs to this device. The text's clock may be later than
    the device's; then the device continues from the text's clock.
    """
    if not is_state_text(text):
        return image.goes_on(device, text)
    found, _ = state_text.open_state(text)
    times, device.clock, device.time = (device.clock, device.time), found.clock, found.time
    if state_text.state_text(device) == state_text.state_text(found):
        return True
    device.clock, device.time = times
    return False


def is_cycled(device: Model, text: bytes) -> bool:
    """Whether a state text is that of this device after a power cycle. A restarted journal begins
    with such a text.
    """
    cycled = image.open_image(image.image(device), profiles=Profile)
    return is_state_text(text) and goes_on(cycled, text)
