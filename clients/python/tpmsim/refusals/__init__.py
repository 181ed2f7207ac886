"""Each refusal of the table on demand, as a device and a command."""

from tpmsim.refusals.made import Refusal, refusal

__all__ = ["Refusal", "refusal"]
