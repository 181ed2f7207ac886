"""TPM2_EvictControl: objects that survive power cycles (TPM 2.0 Library, Part 3, section 28.5)."""

from tpmsim.model.general import Answer, Refusal
from tpmsim.model.object_rules import Object
from tpmsim.model.parameters import Held, Parameters, Request, takes
from tpmsim.standard import first_byte, PERSISTENT, RH_ENDORSEMENT, RH_OWNER, RH_PLATFORM
from tpmsim.standard.objects import Attribute

# The largest number of persistent objects, and the first handle that belongs to the platform.
PERSISTENT_OBJECTS = 16
FIRST_OF_PLATFORM = 0x8180_0000


def is_persistent(handle: int) -> bool:
    return first_byte(handle) == PERSISTENT


def check_hierarchy(asker: int, held: Object, removes: bool) -> None:
    """Checks the hierarchy: the platform may make only its own objects persistent, but may remove
    any.
    """
    if asker == RH_PLATFORM:
        allowed = removes or held.hierarchy == RH_PLATFORM
    else:
        allowed = held.hierarchy in (RH_OWNER, RH_ENDORSEMENT)
    if not allowed:
        raise Refusal("HIERARCHY/h2", "A1", of=held.hierarchy)


def read_persistent(fields: Parameters) -> int:
    handle = fields.number(4)
    if not is_persistent(handle):
        raise fields.refusal("VALUE", "first_byte", first=PERSISTENT, value=handle)
    return handle


class Commands(Held):
    """TPM2_EvictControl, for a device with transient and persistent `objects`."""

    @takes(read_persistent)
    def evict_control(self, request: Request, wanted: int) -> Answer:
        asker, handle = request.handles
        held, removes = self.objects[handle], is_persistent(handle)
        check_hierarchy(asker, held, removes)
        if held.public.has(Attribute.ST_CLEAR):
            raise Refusal("ATTRIBUTES/h2", "A2")
        # The lower half of the handles belongs to the owner, the upper half to the platform.
        is_upper = wanted >= FIRST_OF_PLATFORM
        if asker == RH_OWNER and is_upper or asker == RH_PLATFORM and not removes and not is_upper:
            raise Refusal("RANGE/p1", "A3", case="lower" if is_upper else "upper")
        if removes:
            if handle != wanted:
                raise Refusal("HANDLE/h2", "A4")
            del self.objects[handle]
            return Answer()
        if wanted in self.objects:
            raise Refusal("NV_DEFINED", "A5")
        if sum(map(is_persistent, self.objects)) == PERSISTENT_OBJECTS:
            raise Refusal("NV_SPACE", "A6", most=PERSISTENT_OBJECTS)
        self.objects[wanted] = held
        return Answer()
