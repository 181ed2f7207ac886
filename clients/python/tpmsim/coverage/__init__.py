"""Which refusals of the table logs have met, and which never."""

from tpmsim.coverage.met import Met

__all__ = ["Met"]
