"""Makes callers_one_after_another.tpm. Three callers of one device come one after another."""

from tests.sessions.three_callers import script_of_three

script = script_of_three(__name__, __doc__, is_in_turn=False)
