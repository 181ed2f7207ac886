"""Changes of the device as a whole: its startup, its lockout, its PCRs and its free slots."""

from __future__ import annotations

import functools
from typing import Iterator

from tpmsim.model import policy_state
from tpmsim.model.machine import HANDLE_KINDS, Model, PLACE_BITS, SESSIONS
from tpmsim.model.nv_commands import ALL_BYTES, Index, INDEX_BYTES, INDICES
from tpmsim.model.object_commands import OBJECTS
from tpmsim.model.object_rules import loaded, Object, Sensitive
from tpmsim.model.pcrs import LAST_COUNTER
from tpmsim.model.persistent import is_persistent, PERSISTENT_OBJECTS
from tpmsim.model.protection import LOCKOUT_AUTH
from tpmsim.model.state import LAST_SET_TIME, Saved
from tpmsim.refuse.change import Asked, Change, hexed, OTHER_VALUE
from tpmsim.standard import ALG_NULL, CC, digest, first_byte, HIERARCHIES, is_pcr, KEYEDHASH
from tpmsim.standard import name_of, number, NUMBERED, NV, nv, RH_LOCKOUT, RH_NULL, RH_OWNER
from tpmsim.standard import SE_HMAC, SHA256, TRANSIENT
from tpmsim.standard.objects import Attribute, Public

# The first handles of the indices and of the persistent objects that only take space.
TAKEN_FROM, KEPT_FROM = 0x01F0_0000, 0x817F_0000

# A recovery time in seconds, so that failed tries lock the device.
RECOVERY = 1000

# The commands that the update counter of the PCRs counts.
COUNTED = CC.PCR_Extend, CC.PCR_Event, CC.PCR_Reset, CC.Clear

# The size of a nonce of a session that only takes a slot.
NONCE_BYTES = 16


def locked_out(model: Model) -> None:
    """Makes the device refuse protected values."""
    model.lockout.recovery_time = model.lockout.recovery_time or RECOVERY
    model.lockout.failed_tries = max(model.lockout.max_tries, model.lockout.failed_tries)


def lockout_auth_disabled(model: Model) -> None:
    model.lockout.is_closed = True
    model.lockout.lockout_recovery = model.lockout.lockout_recovery or RECOVERY


def extended(model: Model, pcr: int) -> None:
    """Extends a PCR in each bank, as another program may."""
    for algorithm, bank in model.banks.items():
        bank[pcr] = digest(algorithm, bank[pcr] + digest(algorithm, OTHER_VALUE))
        model.update_counter += 1


def some_object() -> Object:
    """Returns an object that only takes a slot."""
    public = Public(KEYEDHASH, SHA256, Attribute.USER_WITH_AUTH | Attribute.NO_DA, unique=bytes(32))
    sensitive = Sensitive(KEYEDHASH, b"", bytes(32), b"taken")
    return loaded(public, sensitive, RH_OWNER, number(RH_OWNER, 4))


def put_object(model: Model, handle: int) -> None:
    model.objects[handle] = some_object()


def with_another_value(model: Model, hierarchy: int) -> None:
    model.auth_values[hierarchy] = OTHER_VALUE


def objects_full(model: Model) -> None:
    for handle in range(TRANSIENT << 24, (TRANSIENT << 24) + OBJECTS):
        model.objects.setdefault(handle, some_object())


def sessions_full(model: Model) -> None:
    taken = {it & PLACE_BITS for it in model.sessions}
    for place in set(range(SESSIONS)) - taken:
        policy = policy_state.starting_state(SHA256)
        fields = SE_HMAC, SHA256, ALG_NULL, bytes(NONCE_BYTES), b"", name_of(RH_NULL), b"", None
        model.sessions[HANDLE_KINDS[SE_HMAC] << 24 | place] = policy_state.Session(*fields, policy)


def define(model: Model, handle: int, size: int) -> None:
    attributes = nv.Attribute.OWNERREAD | nv.Attribute.OWNERWRITE | nv.Attribute.NO_DA
    public = nv.Public(handle, SHA256, attributes, data_size=size)
    model.indices.setdefault(handle, Index(public, b""))


def indices_full(model: Model) -> None:
    for handle in range(TAKEN_FROM, TAKEN_FROM + INDICES - len(model.indices)):
        define(model, handle, 0)


def no_space(model: Model) -> None:
    left = ALL_BYTES - sum(it.public.data_size for it in model.indices.values())
    for at in range(INDICES - 1 - len(model.indices)):
        size = min(left, INDEX_BYTES)
        if size:
            define(model, TAKEN_FROM + at, size)
        left -= size


def persistent_full(model: Model) -> None:
    taken = sum(map(is_persistent, model.objects))
    for handle in range(KEPT_FROM, KEPT_FROM + PERSISTENT_OBJECTS - taken):
        put_object(model, handle)


def of_power(model: Model, asked: Asked) -> Iterator[Change]:
    """Yields changes of whether the device is started, of what it saved, and of its counters."""
    if model.started:
        yield Change(
            "no TPM2_Startup since a power cycle", lambda it: setattr(it, "started", False)
        )
    else:
        yield Change("TPM2_Startup came already", lambda it: setattr(it, "started", True))
    if model.saved == Saved.STATE:
        yield Change("no state is saved", lambda it: setattr(it, "saved", Saved.NONE))
    if asked.code in COUNTED:
        words = "the update counter of the PCRs is at its end"
        yield Change(words, lambda it: setattr(it, "update_counter", LAST_COUNTER))
    if asked.code == CC.ClockSet:
        yield Change("Clock is at its end", lambda it: setattr(it, "clock", LAST_SET_TIME))


def of_protections(model: Model, asked: Asked) -> Iterator[Change]:
    """Yields changes that lock values out, or disable commands."""
    yield Change("too many failed tries", locked_out)
    is_bound_so = any(it.bind_protection == LOCKOUT_AUTH for it in asked.authorizing(model))
    if RH_LOCKOUT in asked.handles or is_bound_so:
        yield Change("lockoutAuth is disabled", lockout_auth_disabled)
    if asked.code == CC.Clear:
        yield Change("TPM2_Clear is disabled", lambda it: setattr(it, "disable_clear", True))


def of_pcrs(asked: Asked) -> Iterator[Change]:
    """Yields changes of PCRs: the one of each handle, PCR 16, and all."""
    for pcr in dict.fromkeys([*filter(is_pcr, asked.handles), 16]):
        yield Change(f"PCR {pcr} was extended", functools.partial(extended, pcr=pcr))

    def all_extended(model: Model) -> None:
        for pcr in range(len(model.banks[SHA256])):
            extended(model, pcr)

    yield Change("each PCR was extended", all_extended)


def of_slots(asked: Asked) -> Iterator[Change]:
    """Yields changes that take what the command would allocate."""
    if asked.code in (CC.CreatePrimary, CC.Load) or asked.code not in NUMBERED:
        yield Change("all slots for objects are taken", objects_full)
    if asked.code == CC.StartAuthSession:
        yield Change("all slots for sessions are taken", sessions_full)
    if asked.code == CC.NV_DefineSpace:
        yield from of_definition(asked)
    if asked.code == CC.EvictControl:
        yield from of_eviction(asked)


def of_definition(asked: Asked) -> Iterator[Change]:
    """Yields changes of the indices for TPM2_NV_DefineSpace."""
    public = asked.number_at(skipped=1, size=6)
    handle = None if public is None else public & 0xFFFF_FFFF
    if handle is not None and first_byte(handle) == NV:
        words = f"{hexed(handle)} is defined already"
        yield Change(words, functools.partial(define, handle=handle, size=8))
    yield Change("all indices are defined", indices_full)
    yield Change("no space is left for indices", no_space)


def of_eviction(asked: Asked) -> Iterator[Change]:
    """Yields changes of the persistent objects for TPM2_EvictControl."""
    handle = asked.number_at(skipped=0, size=4)
    if handle is not None and is_persistent(handle) and handle not in asked.handles:
        words = f"{hexed(handle)} is taken"
        yield Change(words, functools.partial(put_object, handle=handle))
    yield Change("all persistent objects are taken", persistent_full)


def of_hierarchies(asked: Asked) -> Iterator[Change]:
    """Yields a change of the authorization value of each hierarchy of the command."""
    for handle in asked.handles:
        if handle in (*HIERARCHIES, RH_LOCKOUT) and handle != RH_NULL:
            words = f"the authorization value of {hexed(handle)} is another"
            yield Change(words, functools.partial(with_another_value, hierarchy=handle))
