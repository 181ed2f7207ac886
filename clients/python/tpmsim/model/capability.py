"""TPM2_GetCapability, which lists what the device contains and supports (TPM 2.0 Library, Part 3,
section 30.2).
"""

from tpmsim.model import device_properties
from tpmsim.model.general import Answer, Refusal
from tpmsim.model.parameters import Held, integer, Request, takes
from tpmsim.standard import CC, frames, handle_kinds, HASHES, HMAC_SESSION, number, NV, PERSISTENT
from tpmsim.standard import POLICY_SESSION, Profile, TRANSIENT

# The supported capabilities (Part 2, section 6.12), and the largest number of elements in one
# response.
HANDLES, COMMANDS, PCRS, PROPERTIES = 1, 2, 5, 6
MOST_ELEMENTS = 64

# Capabilities of the complete profile alone. The device has none of the last three: commands that
# require physical presence, commands that are audited, and elliptic curves.
ALGORITHMS, PCR_PROPERTIES = 0, 7
NOTHING = (3, 4, 8)

# The first byte of the handles of PCRs, and that of permanent handles.
PCR_KIND, PERMANENT_KIND = 0x00, 0x40
PERMANENT = (
    frames.RH_OWNER,
    frames.RH_NULL,
    frames.RS_PW,
    frames.RH_LOCKOUT,
    frames.RH_ENDORSEMENT,
    frames.RH_PLATFORM,
)

# Properties (Part 2, section 6.13). FAMILY_INDICATOR is "2.0", followed by a zero byte.
FAMILY_INDICATOR, TOTAL_COMMANDS = 0x100, 0x129
LOCKOUT_COUNTER, MAX_AUTH_FAIL, LOCKOUT_INTERVAL, LOCKOUT_RECOVERY = range(0x20E, 0x212)
FAMILY = b"2.0\0"

# In a command's attributes (TPMA_CC): the position of the number of handles, and the bit for a
# handle in the response.
HANDLES_SHIFT, ANSWERED_HANDLE = 25, 1 << 28
PLACE_BITS = 0xFF_FFFF


def command_attributes(code: CC) -> int:
    answered = ANSWERED_HANDLE if code.answers_handle else 0
    return code | len(code.handles) << HANDLES_SHIFT | answered


class Commands(Held):
    """TPM2_GetCapability, for a device with sessions, objects, indices and a lockout."""

    @takes(integer(4), integer(4), integer(4))
    def get_capability(self, request: Request, capability: int, wanted: int, count: int) -> Answer:
        if capability == PCRS:
            banks = frames.selection(*((algorithm, handle_kinds.PCRS) for algorithm in HASHES))
            return Answer(b"\0" + number(PCRS, 4) + banks)
        elements = self.elements(capability, wanted)
        given = elements[: min(count, MOST_ELEMENTS)]
        more = number(len(given) < len(elements), 1)
        return Answer(more + number(capability, 4) + number(len(given), 4) + b"".join(given))

    def elements(self, capability: int, wanted: int) -> list[bytes]:
        """Returns the elements of a capability in order, beginning at the requested one."""
        if capability == HANDLES:
            return [number(it, 4) for it in self.handles_from(wanted)]
        if capability == COMMANDS:
            codes = sorted(it for it in self.profile.commands.values() if it >= wanted)
            return [number(command_attributes(it), 4) for it in codes]
        if capability == PROPERTIES:
            properties = sorted(self.properties().items())
            return [number(key, 4) + value for key, value in properties if key >= wanted]
        if self.profile == Profile.COMPLETE:
            return self.further_elements(capability, wanted)
        raise Refusal("VALUE/p1", "A1")

    def further_elements(self, capability: int, wanted: int) -> list[bytes]:
        """Returns the elements of a capability that only the complete profile has."""
        if capability == ALGORITHMS:
            algorithms = device_properties.ALGORITHMS.items()
            return [number(key, 2) + number(it, 4) for key, it in algorithms if key >= wanted]
        if capability == PCR_PROPERTIES:
            selected = device_properties.pcr_properties().items()
            octets = [(key, bits.to_bytes(3, "little")) for key, bits in selected if key >= wanted]
            return [number(key, 4) + number(3, 1) + it for key, it in octets]
        if capability in NOTHING:
            return []
        raise Refusal("VALUE/p1", "A1")

    def handles_from(self, wanted: int) -> list[int]:
        """Returns the handles from `wanted` on, of the kind that the first byte of `wanted`
        selects.
        """
        kind = handle_kinds.first_byte(wanted)
        held = {
            PCR_KIND: handle_kinds.PCRS,
            PERMANENT_KIND: PERMANENT,
            NV: self.indices,
            TRANSIENT: self.objects,
            PERSISTENT: self.objects,
        }
        if kind == HMAC_SESSION:
            # Sessions of all types, in the order of their slots.
            by_place = sorted((it & PLACE_BITS, it) for it in self.sessions)
            return [handle for at, handle in by_place if at >= wanted & PLACE_BITS]
        # Handles of this kind are those of saved sessions. The device itself never saves a
        # session.
        if kind == POLICY_SESSION:
            return []
        if kind not in held:
            raise Refusal("HANDLE/p2", "A2", kind=kind)
        of_kind = [it for it in held[kind] if handle_kinds.first_byte(it) == kind]
        return sorted(it for it in of_kind if it >= wanted)

    def properties(self) -> dict[int, bytes]:
        lockout = self.lockout
        is_complete = self.profile == Profile.COMPLETE
        further = device_properties.properties(self) if is_complete else {}
        return {
            **{key: number(it, 4) for key, it in further.items()},
            FAMILY_INDICATOR: FAMILY,
            TOTAL_COMMANDS: number(len(self.profile.commands), 4),
            LOCKOUT_COUNTER: number(lockout.failed_tries, 4),
            MAX_AUTH_FAIL: number(lockout.max_tries, 4),
            LOCKOUT_INTERVAL: number(lockout.recovery_time, 4),
            LOCKOUT_RECOVERY: number(lockout.lockout_recovery, 4),
        }
