"""Layered scripts, which can name values from responses, and in which the HMACs of entries are
computed.
"""

from tpmsim.script.layer import BadScript, Layer
from tpmsim.script.own_device import own_device

__all__ = ["BadScript", "Layer", "own_device"]
