"""The kind of a handle, which depends only on its number (TPM 2.0 Library, Part 2, section 7)."""

from dataclasses import dataclass
from typing import Callable

from tpmsim.standard.commands import HandleKind
from tpmsim.standard.frames import HMAC_SESSION, NV, PERSISTENT, POLICY_SESSION, RH_ENDORSEMENT
from tpmsim.standard.frames import RH_LOCKOUT, RH_NULL, RH_OWNER, RH_PLATFORM, TRANSIENT

PCRS = range(24)
HIERARCHIES = (RH_OWNER, RH_ENDORSEMENT, RH_PLATFORM, RH_LOCKOUT)
PRIMARY_HIERARCHIES = (RH_OWNER, RH_ENDORSEMENT, RH_PLATFORM, RH_NULL)

# The hierarchies that may define and undefine NV indices, and make objects persistent or remove
# them; and those that may execute TPM2_Clear and TPM2_ClearControl.
PROVISIONERS, CLEARERS = (RH_OWNER, RH_PLATFORM), (RH_LOCKOUT, RH_PLATFORM)


def first_byte(handle: int) -> int:
    """Returns the first byte of a handle, which determines the type of its entity."""
    return handle >> 24


def is_pcr(handle: int) -> bool:
    """Returns whether a handle is that of a PCR."""
    return handle in PCRS


# For the following kinds, the number of the handle alone shows the type of the entity, even if
# there is no such entity.


def is_object(handle: int) -> bool:
    """Returns whether a handle is that of an object."""
    return first_byte(handle) in (TRANSIENT, PERSISTENT)


def is_policy(handle: int) -> bool:
    """Returns whether a handle is that of a policy or trial session."""
    return first_byte(handle) == POLICY_SESSION


def is_index(handle: int) -> bool:
    """Returns whether a handle is that of an NV index."""
    return first_byte(handle) == NV


def is_session(handle: int) -> bool:
    """Returns whether a handle is that of a session."""
    return first_byte(handle) in (HMAC_SESSION, POLICY_SESSION)


def is_entity(handle: int) -> bool:
    """Whether a handle has an authorization value of its own."""
    return is_pcr(handle) or handle in HIERARCHIES or is_object(handle) or is_index(handle)


@dataclass(frozen=True)
class HandleForm:
    """A kind of handle: the condition that its handles satisfy, its name in docs/SCRIPTS.md, and
    its name in text.
    """

    holds: Callable[[int], bool]
    mark: str
    words: str


NULL, OBJECTS = RH_NULL, "a PCR, a hierarchy, LOCKOUT, an object"
HANDLES = {
    HandleKind.PCR: HandleForm(is_pcr, "PCR", "a PCR, 00000000 to 00000017"),
    HandleKind.PCR_OR_NULL: HandleForm(
        lambda it: is_pcr(it) or it == NULL, "PCR", "a PCR, 00000000 to 00000017, or NULL"
    ),
    HandleKind.NULL: HandleForm(lambda it: it == NULL, "NULL", "NULL, 40000007"),
    HandleKind.HIERARCHY_OR_NULL: HandleForm(
        PRIMARY_HIERARCHIES.__contains__, "Hierarchy", "OWNER, ENDORSEMENT, PLATFORM or NULL"
    ),
    HandleKind.HIERARCHY_AUTH: HandleForm(
        HIERARCHIES.__contains__, "Hierarchy", "OWNER, ENDORSEMENT, PLATFORM or LOCKOUT"
    ),
    HandleKind.LOCKOUT: HandleForm(lambda it: it == RH_LOCKOUT, "LOCKOUT", "LOCKOUT, 4000000a"),
    HandleKind.CLEAR: HandleForm(CLEARERS.__contains__, "Hierarchy", "LOCKOUT or PLATFORM"),
    HandleKind.PROVISION: HandleForm(PROVISIONERS.__contains__, "Hierarchy", "OWNER or PLATFORM"),
    HandleKind.ENTITY: HandleForm(is_entity, "Entity", f"{OBJECTS} or an NV index"),
    HandleKind.ENTITY_OR_NULL: HandleForm(
        lambda it: is_entity(it) or it == NULL, "Entity", f"{OBJECTS}, an NV index or NULL"
    ),
    HandleKind.OBJECT: HandleForm(is_object, "Object", "an object, 80.. or 81.."),
    HandleKind.NV_AUTH: HandleForm(
        lambda it: it in PROVISIONERS or is_index(it), "Entity", "OWNER, PLATFORM or an NV index"
    ),
    HandleKind.NV_INDEX: HandleForm(is_index, "Index", "an NV index, 01.."),
    HandleKind.POLICY: HandleForm(is_policy, "Policy", "a policy or trial session, 03.."),
    HandleKind.SESSION: HandleForm(is_session, "Session", "a session, 02.. or 03.."),
}
IS_OF_KIND = {kind: it.holds for kind, it in HANDLES.items()}
