"""The properties that the completing layer lists (TPM 2.0 Library, Part 2, sections 6.13, 8.6 and
8.7). The comments contain the standard's names without TPM_PT_.
"""

from dataclasses import dataclass

from tpmsim.model import contexts, device_properties, object_commands
from tpmsim.model.device_properties import IDENTITY, LIBRARY_COMMANDS, NOTHING, TOTAL_COMMANDS
from tpmsim.model.machine import Model, SESSIONS
from tpmsim.standard import AES, frames, NUMBERED, SHA256

SESSION_CONTEXT_BYTES = 38
LIMITS = device_properties.LIMITS | {
    0x114: 2**32 - 1,  # CONTEXT_GAP_MAX: a saved context never gets too old
    # CONTEXT_HASH, CONTEXT_SYM, CONTEXT_SYM_SIZE: of an object's context
    **{0x11A: SHA256, 0x11B: AES, 0x11C: frames.AES_KEY_BITS},
    # MAX_OBJECT_CONTEXT, MAX_SESSION_CONTEXT
    **{0x121: contexts.CONTEXT_BYTES, 0x122: SESSION_CONTEXT_BYTES},
}


@dataclass(frozen=True)
class Counts:
    """The numbers of loaded sessions, of saved sessions, and of transient objects."""

    loaded: int
    saved: int
    objects: int


def counted(device: Model, counts: Counts) -> dict[int, int]:
    active = counts.loaded + counts.saved
    return device_properties.counted(device) | {
        **{0x203: counts.loaded, 0x204: SESSIONS - counts.loaded},  # HR_LOADED, HR_LOADED_AVAIL
        **{0x205: active, 0x206: SESSIONS - active},  # HR_ACTIVE, HR_ACTIVE_AVAIL
        0x207: object_commands.OBJECTS - counts.objects,  # HR_TRANSIENT_AVAIL
    }


def properties(device: Model, counts: Counts, own_commands: int) -> dict[int, int]:
    """Returns all properties. The parameters of lockout are those that the device itself lists."""
    commands = len(NUMBERED) + own_commands
    of_device = {it: int.from_bytes(told, "big") for it, told in device.properties().items()}
    own = IDENTITY | LIMITS | counted(device, counts) | NOTHING
    return of_device | own | {TOTAL_COMMANDS: commands, LIBRARY_COMMANDS: commands}
