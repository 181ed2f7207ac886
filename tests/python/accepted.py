"""Commands that the device accepts, as correct clients send them: the example of each command, and
the same command with other entries and other entities.
"""

from __future__ import annotations

import itertools
from dataclasses import dataclass
from typing import Callable, Iterator

from tpmsim.caller.entries import Means, Prepared
from tpmsim.caller.examples import BITS, COUNTER, EXAMPLES, EXTENDED, LOCKS, PERSISTENT, Scene
from tpmsim.caller.knowledge import STATE
from tpmsim.caller.templates import area, BY_OWNER, BY_POLICY, BY_VALUE, hmac_key, sealed
from tpmsim.caller.templates import storage_key
from tpmsim.device import ModelDevice
from tpmsim.standard import CC, digest, Fact, HandleKind, nv, policy, RH_OWNER, SHA256
from tpmsim.standard.objects import Public

# An index with a protected authorization value, to which sessions are bound; and an index that a
# command uses instead of the one in its example.
PIN, OTHER, VALUE = 0x0100_0010, 0x0100_0011, b"pin"

# The types of the indices that these commands need.
TYPES = {
    CC.NV_Increment: nv.Type.COUNTER,
    CC.NV_SetBits: nv.Type.BITS,
    CC.NV_Extend: nv.Type.EXTEND,
}


@dataclass(frozen=True)
class Accepted:
    """A command that a device in the state of `text` accepts."""

    code: CC
    text: bytes
    buffer: bytes


# Entities that a command can use.


def template(code: CC) -> tuple[Public, bytes]:
    """Returns the template of an object that the command can use, and its data."""
    auth_policy = policy_for(code)
    if code == CC.HMAC:
        return hmac_key(auth_policy=auth_policy), b"key"
    if code in (CC.Create, CC.Load):
        return storage_key(auth_policy=auth_policy), b""
    return sealed(auth_policy=auth_policy), b"data"


def policy_for(code: CC) -> bytes:
    """Returns the digest of the policy for one command."""
    return policy.after_command_code(SHA256, bytes(32), code)


def an_object(scene: Scene, code: CC) -> int:
    """Makes an object that its empty value or a policy authorizes."""
    return scene.primary("An object", *template(code))


def a_persistent_object(scene: Scene, code: CC) -> int:
    handle = an_object(scene, code)
    scene.tpm.send(scene.tpm.evicting(RH_OWNER, handle, PERSISTENT))
    scene.tpm.send(scene.tpm.flush(handle))
    return PERSISTENT


def an_index(scene: Scene, code: CC) -> int:
    """Defines an index that its empty value or a policy authorizes."""
    kind = TYPES.get(code, nv.Type.ORDINARY)
    attributes = BY_OWNER | BY_VALUE | BY_POLICY | LOCKS
    scene.tpm.define(area(OTHER, attributes, kind=kind, auth_policy=policy_for(code)))
    if kind == nv.Type.ORDINARY:
        scene.tpm.send(scene.tpm.writing(OTHER, b"data", by=RH_OWNER))
    return OTHER


Make = Callable[[Scene, CC], int]

# The kinds of handles that may name what these make.
ENTITIES: dict[Make, tuple[HandleKind, ...]] = {
    an_object: (HandleKind.OBJECT, HandleKind.ENTITY, HandleKind.ENTITY_OR_NULL),
    a_persistent_object: (HandleKind.OBJECT, HandleKind.ENTITY, HandleKind.ENTITY_OR_NULL),
    an_index: (
        *(HandleKind.NV_AUTH, HandleKind.NV_INDEX),
        *(HandleKind.ENTITY, HandleKind.ENTITY_OR_NULL),
    ),
}


def with_entity(scene: Scene, code: CC, make: Make | None) -> Prepared | None:
    """Returns the example of a command, with another entity for each handle that may name it; None
    if no handle may.
    """
    example = EXAMPLES[code](scene)
    if make is None:
        return example
    at = [place for place, it in enumerate(code.handles) if it.kind in ENTITIES[make]]
    if not at:
        return None
    entity, handles = make(scene, code), list(example.handles)
    for place in at:
        handles[place] = entity
    if code == CC.Load:
        return scene.tpm.loading(entity, scene.create(entity))
    return example.but(handles=handles)


# Commands with other parameters or handles than the example's.

Other = Callable[[Scene], Prepared]


def resuming(scene: Scene) -> Prepared:
    """TPM2_Startup with the state that a shutdown saved."""
    scene.tpm.send(scene.tpm.shutting_down(STATE))
    scene.power_cycle()
    return scene.tpm.starting(STATE)


def expecting_pcrs(scene: Scene) -> Prepared:
    """TPM2_PolicyPCR with the expected digest of the PCRs."""
    return scene.tpm.pcrs(scene.session(), "sha256:0", digest(SHA256, bytes(32)))


def at_once(scene: Scene) -> Prepared:
    """TPM2_PolicySecret for one session and one command."""
    session = scene.session()
    return scene.tpm.secret(session, nonce_tpm=session.nonce_tpm, cp_hash=bytes(32))


OTHERS: dict[CC, Other] = {
    CC.Startup: resuming,
    CC.PolicyPCR: expecting_pcrs,
    CC.PolicySecret: at_once,
    CC.NV_Increment: lambda it: it.tpm.incrementing(COUNTER, by=RH_OWNER),
    CC.NV_SetBits: lambda it: it.tpm.setting(BITS, 1, by=RH_OWNER),
    CC.NV_Extend: lambda it: it.tpm.extending(EXTENDED, b"data", by=RH_OWNER),
}

# Entries that a command can have.

Uses = Callable[[Scene, Prepared], list[Means]]


def as_prepared(scene: Scene, prepared: Prepared) -> list[Means]:
    return list(prepared.uses)


def in_session(scene: Scene, prepared: Prepared) -> list[Means]:
    """A session that is bound to a protected index."""
    return [scene.tpm.session(bind=PIN)]


def in_own_session(scene: Scene, prepared: Prepared) -> list[Means]:
    """A session that is bound to nothing."""
    return [scene.tpm.session()]


def by_policy(scene: Scene, prepared: Prepared) -> list[Means]:
    """A session that satisfies the policy for the command."""
    session = scene.session()
    scene.tpm.send(scene.tpm.command_code(session, prepared.code))
    return [session]


def with_another(scene: Scene, prepared: Prepared) -> list[Means]:
    """The entries as prepared, and a session that authorizes nothing."""
    return [*prepared.uses, scene.tpm.session(bind=PIN)]


ENTRIES: tuple[Uses, ...] = as_prepared, in_session, in_own_session, by_policy, with_another


def with_entries(scene: Scene, prepared: Prepared, uses: Uses) -> Prepared | None:
    """Returns a command with other entries; None if it has them already, or takes none."""
    if uses is as_prepared:
        return prepared
    if prepared.code.has(Fact.NO_SESSIONS):
        return None
    given = prepared.handles, prepared.parameters, *uses(scene, prepared)
    return scene.tpm.prepare(prepared.code, *given)


def staged(make: Callable[[Scene], Prepared | None]) -> Accepted | None:
    """Returns a command on a new device; None if there is none, or the device refuses it."""
    device = ModelDevice()
    scene = Scene.on(device)
    scene.tpm.define(area(PIN, BY_VALUE | BY_OWNER), auth=VALUE)
    prepared = make(scene)
    if not prepared:
        return None
    text, buffer = bytes(device.snapshot()), prepared.buffer()
    is_accepted = device.execute(buffer).check == "ok"
    return Accepted(prepared.code, text, buffer) if is_accepted else None


def of_example(code: CC, make: Make | None, uses: Uses) -> Callable[[Scene], Prepared | None]:
    def made(scene: Scene) -> Prepared | None:
        example = with_entity(scene, code, make)
        return example and with_entries(scene, example, uses)

    return made


def accepted() -> Iterator[Accepted]:
    """Yields the commands. Those that the device refuses are left out: their entries do not
    authorize them.
    """
    makes = [of_example(*it) for it in itertools.product(EXAMPLES, (None, *ENTITIES), ENTRIES)]
    yield from filter(None, map(staged, [*makes, *OTHERS.values()]))
