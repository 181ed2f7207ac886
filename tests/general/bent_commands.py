"""Makes bent_commands.tpm. Each command is altered: first a zero byte is added at the end, with
commandSize corrected. Then commandSize, and each size and each count after the header, is increased
and decreased by one, and nothing else is changed. Decreasing 0 results in the largest number of the
same size. All altered commands are refused. Finally the unaltered command is sent.
"""

from tests.common.script import SUCCESS
from tests.general.changes import bends
from tests.general.looks import LookingScript

script = LookingScript(__name__, __doc__)


def rows(outcome, buffer):
    for what, bent in bends(buffer) if outcome == SUCCESS else ():
        refused = script.outcome_now(bent)
        if refused == SUCCESS:
            raise ValueError(f"{buffer.hex()}: it is a success with {what}")
        yield f"With {what}", refused, [bent]


script.refuses_each(rows)
