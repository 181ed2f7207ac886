"""Devices that execute commands. They all have the methods of `Transport`."""

from tpmsim.device import library
from tpmsim.device.base import Answered, BadImage, BadState, DeviceEnded, Snapshot
from tpmsim.device.base import Transport, Unsupported
from tpmsim.device.child import ChildDevice
from tpmsim.device.kept import KeptDevice
from tpmsim.device.library import LibraryDevice
from tpmsim.device.served import FileDevice, ServedDevice, SimulatorDevice
from tpmsim.device.swtpm import StartedSwtpm, SwtpmDevice
from tpmsim.device.told import Device, ModelDevice

kind: type[Device] = ChildDevice
if library.is_there():
    kind = LibraryDevice
Device.preferred = kind

# fmt: off
__all__ = [
    "Answered", "BadImage", "BadState", "ChildDevice", "Device", "DeviceEnded", "FileDevice",
    "KeptDevice", "LibraryDevice", "ModelDevice", "ServedDevice", "SimulatorDevice", "Snapshot",
    "StartedSwtpm", "SwtpmDevice", "Transport", "Unsupported"
]
# fmt: on
