"""TPM 2.0 for tests: callers that compute sessions and HMACs, devices that execute commands, and a
second implementation of the device, in Python.

`tpmsim.caller` makes commands and reads responses, `tpmsim.device` contains devices that execute
them, `tpmsim.model` is a device in plain Python, and `tpmsim.audit` audits the log of a device.
These packages use `tpmsim.standard`, which contains the numbers, the structures and the
computations of the standard. Every exception of the package is a `TpmsimError`.
"""

from tpmsim.faults import BadValue, TpmsimError

__all__ = ["BadValue", "TpmsimError"]
__version__ = "0.1.0"
