"""Reads the records of a device, for explaining, auditing and comparing."""

from tpmsim.records.opened import goes_on, is_cycled, is_state_text, Opened, opened
from tpmsim.records.reader import Bad, BadHead, Begin, Command, Comment, COMPLETED, Cut, Power
from tpmsim.records.reader import Step, steps_of, TRACE

# fmt: off
__all__ = [
    "Bad", "BadHead", "Begin", "Command", "Comment", "COMPLETED", "Cut", "goes_on",
    "is_cycled", "is_state_text", "Opened", "opened", "Power", "Step", "steps_of", "TRACE"
]
# fmt: on
