"""Audits logs of devices, event by event."""
