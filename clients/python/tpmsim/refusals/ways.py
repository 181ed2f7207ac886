"""What the ways to a refusal by a command's own check share."""

from typing import Callable

from tpmsim.caller.entries import Prepared
from tpmsim.refusals.stage import Stage
from tpmsim.standard import CC

# What makes a command refused, and returns it; and the ways by command and check.
Way = Callable[[Stage], Prepared]
Ways = dict[tuple[CC, str], Way]

# An authorization value that is longer than a SHA-1 digest, and a policy digest of a wrong size.
LONG_AUTH, SHORT = b"a" * 21, b"short"

# The largest counter of the device.
LAST = 2**64 - 1


def sent_twice(stage: Stage) -> Prepared:
    """The example, once the device has already executed it."""
    example = stage.example()
    stage.tpm.send(example)
    return example


def far(stage: Stage) -> Prepared:
    """The example on a device whose counters are as large as they can be."""
    example, model = stage.example(), stage.device.model
    model.update_counter = model.largest_counter = LAST
    return example
