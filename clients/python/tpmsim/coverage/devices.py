"""Counts what a device in Python executes, also before its log begins again: `restore` replaces the
events, and the journal of a kept device begins again at a power cycle.
"""

from __future__ import annotations

from typing import Any, Callable

from tpmsim.coverage.met import Met
from tpmsim.device import KeptDevice, Transport
from tpmsim.device.base import Executed
from tpmsim.explain.of_device import log_of

# The calls after which a device's log begins again.
CALLS = "restore", "power_cycle"


class Counted:
    """A device whose events are counted once each."""

    def __init__(self, met: Met, device: Transport) -> None:
        self.met, self.device, self.done = met, device, 0
        for name in CALLS if isinstance(device, KeptDevice) else CALLS[:1]:
            if hasattr(device, name):
                setattr(device, name, self.counting(getattr(device, name)))

    def counting(self, call: Callable[..., Any]) -> Callable[..., Any]:
        """Returns a call before which the device's events are counted."""

        def counted(*given: object) -> Any:
            self.count()
            done = call(*given)
            self.done = self.events()
            return done

        return counted

    def events(self) -> int:
        """Returns how many commands and power cycles the device's log has."""
        if isinstance(self.device, KeptDevice):
            return 0
        return sum(isinstance(it, Executed) or it == "power" for it in self.device.events)

    def count(self) -> None:
        """Counts the events that are not counted yet."""
        self.met.add(log_of(self.device), self.done)
        self.done = self.events()
