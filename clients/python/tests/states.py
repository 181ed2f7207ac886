"""State texts without the number of the completing layer's start, which differs for each device
that is restored into a folder.
"""

from tpmsim.model import state_text


def without_start(text):
    model, layer = state_text.open_state(bytes(text))
    if layer is not None:
        layer.start = 0
    return state_text.state_text(model, layer)
