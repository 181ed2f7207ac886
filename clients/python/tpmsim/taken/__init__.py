"""Takes the texts that other programs write about a TPM, and finds the commands, the responses and
the response codes in them.
"""

from tpmsim.taken.taken import NothingFound, Taken, taken_of, TooLong

__all__ = ["NothingFound", "Taken", "taken_of", "TooLong"]
