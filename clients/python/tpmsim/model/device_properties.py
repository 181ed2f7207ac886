"""What a device of the complete profile lists: its properties (TPM 2.0 Library, Part 2, sections
6.13, 8.6 and 8.7), its algorithms (8.2), and the properties of its PCRs (6.14). The comments contain
the standard's names without TPM_PT_.
"""

from typing import Callable, Sequence

from tpmsim.model import nv_commands, object_commands, pcrs, persistent
from tpmsim.model.parameters import Held
from tpmsim.model.policy_state import SESSIONS
from tpmsim.model.state import SAVED_PCRS
from tpmsim.standard import COMMAND_BYTES, DIGEST_BYTES, first_byte, nv, PCRS, Profile
from tpmsim.standard import RH_ENDORSEMENT, RH_LOCKOUT, RH_OWNER, TRANSIENT

# The attributes of each algorithm, by its number.
ALGORITHMS = {
    **{0x04: 0x004, 0x05: 0x104, 0x06: 0x002, 0x08: 0x30C, 0x0A: 0x006, 0x0B: 0x004},
    **{0x22: 0x404, 0x25: 0x008, 0x43: 0x202},
}

IDENTITY = {
    **{0x100: 0x322E3000, 0x101: 0, 0x102: 138},  # FAMILY_INDICATOR, LEVEL, REVISION
    **{0x103: 273, 0x104: 2016},  # DAY_OF_YEAR, YEAR: 29 September 2016
    **{0x105: 0x5453494D},  # MANUFACTURER: "TSIM"
    **{0x106: 0x74706D73, 0x107: 0x696D0000, 0x108: 0, 0x109: 0},  # VENDOR_STRING_1..4: "tpmsim"
    **{0x10A: 1, 0x10B: 1, 0x10C: 0},  # VENDOR_TPM_TYPE, FIRMWARE_VERSION_1 and 2
}
LIMITS = {
    0x10D: nv_commands.BUFFER_BYTES,  # INPUT_BUFFER
    0x10E: object_commands.OBJECTS,  # HR_TRANSIENT_MIN
    0x10F: persistent.PERSISTENT_OBJECTS,  # HR_PERSISTENT_MIN
    **{0x110: SESSIONS, 0x111: SESSIONS},  # HR_LOADED_MIN, ACTIVE_SESSIONS_MAX
    **{0x112: len(PCRS), 0x113: 3},  # PCR_COUNT, PCR_SELECT_MIN
    **{0x116: nv_commands.INDICES, 0x117: nv_commands.INDEX_BYTES},  # NV_COUNTERS_MAX, NV_INDEX_MAX
    0x118: 0,  # MEMORY: no memory is shared
    **{0x11E: COMMAND_BYTES, 0x11F: COMMAND_BYTES},  # MAX_COMMAND_SIZE, MAX_RESPONSE_SIZE
    0x120: DIGEST_BYTES,  # MAX_DIGEST
    **{0x128: 0, 0x12B: 0, 0x12D: 0},  # SPLIT_MAX, VENDOR_COMMANDS, MODES
    0x12C: nv_commands.BUFFER_BYTES,  # NV_BUFFER_MAX
}
TOTAL_COMMANDS, LIBRARY_COMMANDS = 0x129, 0x12A

# Properties that are 0 because the device has no such feature: ALGORITHM_SET, LOADED_CURVES,
# NV_WRITE_RECOVERY, AUDIT_COUNTER_0 and 1.
NOTHING = {0x20C: 0, 0x20D: 0, 0x212: 0, 0x213: 0, 0x214: 0}

# Bits of TPMA_PERMANENT: for each of these handles, the bit that says that its authorization value
# is set; and other bits.
VALUES_SET = {RH_OWNER: 1, RH_ENDORSEMENT: 2, RH_LOCKOUT: 4}
DISABLE_CLEAR, IN_LOCKOUT, TPM_GENERATED_EPS = 0x100, 0x200, 0x400

# Bits of TPMA_STARTUP_CLEAR: phEnable, shEnable, ehEnable and phEnableNV; and orderly.
ENABLED, ORDERLY = 0xF, 0x8000_0000


def permanent(device: Held) -> int:
    values = sum(bit for handle, bit in VALUES_SET.items() if device.auth_values.get(handle))
    clear = DISABLE_CLEAR if device.disable_clear else 0
    lockout = IN_LOCKOUT if device.lockout.is_locked() else 0
    return values | clear | lockout | TPM_GENERATED_EPS


def startup_clear(device: Held) -> int:
    return ENABLED | (ORDERLY if device.restart_count else 0)


def counted(device: Held) -> dict[int, int]:
    active = len(device.sessions)
    held = sum(persistent.is_persistent(it) for it in device.objects)
    transient = sum(first_byte(it) == TRANSIENT for it in device.objects)
    counters = sum(it.public.kind == nv.Type.COUNTER for it in device.indices.values())
    return {
        **{0x200: permanent(device), 0x201: startup_clear(device)},  # PERMANENT, STARTUP_CLEAR
        **{0x202: len(device.indices), 0x20A: counters},  # HR_NV_INDEX, NV_COUNTERS
        **{0x203: active, 0x204: SESSIONS - active},  # HR_LOADED, HR_LOADED_AVAIL
        **{0x205: active, 0x206: SESSIONS - active},  # HR_ACTIVE, HR_ACTIVE_AVAIL
        0x207: object_commands.OBJECTS - transient,  # HR_TRANSIENT_AVAIL
        # HR_PERSISTENT, HR_PERSISTENT_AVAIL
        **{0x208: held, 0x209: persistent.PERSISTENT_OBJECTS - held},
    }


def properties(device: Held) -> dict[int, int]:
    """Returns the properties that only a device of the complete profile lists."""
    commands = len(Profile.COMPLETE.commands)
    return IDENTITY | LIMITS | counted(device) | NOTHING | {LIBRARY_COMMANDS: commands}


def with_locality(localities: Callable[[int], Sequence[int]], locality: int) -> int:
    return sum(1 << it for it in PCRS if locality in localities(it))


def pcr_properties() -> dict[int, int]:
    """Returns, for each property of PCRs, a bit for each PCR. A property says that
    TPM2_Shutdown(STATE) saves the PCR (0); that a locality may extend it (1, 3, ..) or reset it (2,
    4, ..); that its changes are not counted (11); or that it has a policy (13) or an authorization
    value (14).
    """
    found = {0: (1 << SAVED_PCRS) - 1, **{0x11: 0, 0x13: 0, 0x14: 0}}
    for locality in pcrs.LOCALITIES:
        found[2 * locality + 1] = with_locality(pcrs.extended_from, locality)
        found[2 * locality + 2] = with_locality(pcrs.reset_from, locality)
    return dict(sorted(found.items()))
