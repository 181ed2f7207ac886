"""Makes turned_commands.tpm. Each byte of each command is changed: its lowest bit, its highest bit,
and all of its bits. Changes after which the command would succeed, or count as a failed try, are
left out. Finally the unchanged command is sent.
"""

import itertools

from tests.common.script import SUCCESS
from tests.general.changes import turns
from tests.general.looks import LookingScript

CHANGING = SUCCESS, "AUTH_FAIL"

script = LookingScript(__name__, __doc__)


def rows(_, buffer):
    told = ((script.outcome_now(it), it) for it in turns(buffer))
    for outcome, row in itertools.groupby(told, lambda it: it[0]):
        if outcome.partition("/")[0] not in CHANGING:
            yield "Turned", outcome, [turned for _, turned in row]


script.refuses_each(rows)
