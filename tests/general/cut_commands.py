"""Makes cut_commands.tpm. Each command is cut to every shorter length: first without any other
change, and then with its commandSize corrected. Finally the whole command is sent. If even the
whole command is refused, each cut after its authorization area has the same outcome.
"""

from tests.common.script import SUCCESS
from tests.general.changes import cuts
from tests.general.looks import LookingScript

script = LookingScript(__name__, __doc__)


def rows(outcome, buffer):
    for what, refused, cut in cuts(buffer):
        is_after_area = outcome != SUCCESS and refused.startswith("INSUFFICIENT/p")
        yield what, outcome if is_after_area else refused, cut


script.refuses_each(rows)
