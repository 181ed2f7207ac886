"""Makes callers_in_turn.tpm. Three callers of one device take turns. Each has one command
executed, and then the next one has its turn.
"""

from tests.sessions.three_callers import script_of_three

script = script_of_three(__name__, __doc__)
