"""The state text of a device: its whole state as bytes. A device that is restored from it continues
where the original device stopped.

It has the frame of an image, with a different magic. Its body (docs/table/state_text.md) contains
what the device keeps without power, encoded as in its image; what a power cycle would clear; and
what the completing layer remembers, if there is one. The version says of which profile the device
is: 2 of the symmetric profile, 3 of the complete one. Version 1 is no longer read.
"""

from __future__ import annotations

from dataclasses import dataclass, field
from typing import Callable, TypeVar

from tpmsim.model import image, object_rules, policy_state, sequence_text
from tpmsim.model.general import Refusal
from tpmsim.model.image import check
from tpmsim.model.machine import HANDLE_KINDS, LEAST_NONCE, Model, PLACE_BITS, SESSIONS
from tpmsim.model.object_commands import OBJECTS
from tpmsim.model.parameters import Parameters
from tpmsim.model.policy_state import Session, State
from tpmsim.model.protection import LOCKOUT_AUTH, Lockout, MILLISECONDS, TRIES
from tpmsim.model.sequences import NO_SEQUENCES, Slots
from tpmsim.standard import AES, aes, DIGEST_BYTES, digest_bytes, frames, name_of, number
from tpmsim.standard import PCRS, policy, Profile, RH_NULL, Short, sized, TRANSIENT
from tpmsim.standard.aes_tables import encrypt_block

T = TypeVar("T")

MAGIC = b"TPMS"

# The version of each profile. Texts of version 1 are refused by this version's fault, after the
# checks of the frame.
VERSION_1 = 1
VERSIONS = {Profile.SYMMETRIC: 2, Profile.COMPLETE: 3}
PROFILES = {number: profile for profile, number in VERSIONS.items()}
NUMBERS = {(MAGIC, it): it for it in (VERSION_1, *PROFILES)}

# The protections and the demands. The index of each one is its encoding.
PROTECTIONS = None, TRIES, LOCKOUT_AUTH
DEMANDS = None, policy.AUTH_VALUE, policy.PASSWORD

# The byte that says whether there is a layer, and whether it has sequence objects.
NO_LAYER, LAYER, LAYER_WITH_SEQUENCES = LAYERS = range(3)

LOCALITY_BITS = range(policy.ALL_LOCALITIES + 1)
LOCKOUT_TIMES = range(MILLISECONDS * 2**32)


@dataclass
class Layer:
    """What the completing layer remembers: a number that is new at each start of the layer; the
    sequence of its last context; for each session slot the sequence of the saved session's context,
    or 0 if no session is saved there; and its sequence objects.
    """

    start: int = 0
    count: int = 0
    sessions: list[int] = field(default_factory=lambda: [0] * SESSIONS)
    sequences: Slots = field(default_factory=NO_SEQUENCES.copy)


def state_text(device: Model, layer: Layer | None = None) -> bytes:
    return framed(device_text(device) + optional_layer_text(layer), device.profile)


def framed(body: bytes, profile: Profile = Profile.SYMMETRIC) -> bytes:
    return image.digested(VERSIONS[profile], body, MAGIC)


def device_text(device: Model) -> bytes:
    kept = image.WRITTEN[device.profile].limits + image.body_text(device)
    return kept + b"".join(
        (
            number(device.started, 1),
            banks_text(device),
            number(device.time, 8),
            number(device.lockout.forgiving_time, 8),
            number(device.lockout.closed_time, 8),
            sessions_text(device),
            objects_text(device),
        )
    )


def optional_text(value: T | None, text_of: Callable[[T], bytes]) -> bytes:
    return number(0, 1) if value is None else number(1, 1) + text_of(value)


def number_text(size: int) -> Callable[[int], bytes]:
    return lambda value: number(value, size)


def banks_text(device: Model) -> bytes:
    values = b"".join(value for bank in image.BANKS for value in device.banks[bank])
    return values + number(device.update_counter, 8)


def sessions_text(device: Model) -> bytes:
    by_place = {handle & PLACE_BITS: it for handle, it in device.sessions.items()}
    return b"".join(optional_text(by_place.get(at), session_text) for at in range(SESSIONS))


def objects_text(device: Model) -> bytes:
    handles = range(TRANSIENT << 24, (TRANSIENT << 24) + OBJECTS)
    return b"".join(optional_text(device.objects.get(it), image.object_text) for it in handles)


def session_text(session: Session) -> bytes:
    cipher = frames.symmetric(session.cipher == AES, session.masks)
    kind = number(session.kind, 1) + number(session.algorithm, 2) + cipher
    secrets = sized(session.nonce_tpm) + sized(session.key)
    bound = session if session.is_bound else None
    return kind + secrets + optional_text(bound, binding_text) + policy_text(session.policy)


def binding_text(session: Session) -> bytes:
    protection = number(PROTECTIONS.index(session.bind_protection), 1)
    return sized(session.bind) + sized(session.bind_auth) + protection


def policy_text(told: State) -> bytes:
    return b"".join(
        (
            sized(told.digest),
            optional_text(told.update_counter, number_text(8)),
            optional_text(told.code, number_text(4)),
            optional_text(told.cp_hash, sized),
            optional_text(told.nv_written, number_text(1)),
            number(told.localities, 1),
            number(DEMANDS.index(told.demand), 1),
        )
    )


def optional_layer_text(layer: Layer | None) -> bytes:
    if layer is None:
        return number(NO_LAYER, 1)
    if not any(layer.sequences):
        return number(LAYER, 1) + layer_text(layer)
    slots = sequence_text.slots_text(layer.sequences)
    return number(LAYER_WITH_SEQUENCES, 1) + layer_text(layer) + slots


def layer_text(layer: Layer) -> bytes:
    return b"".join(number(it, 8) for it in (layer.start, layer.count, *layer.sessions))


# Reading a state text. Bytes that are not a state text have the same faults, found in the same
# order, as bytes that are not an image. A text of version 1 has the fault Earlier instead of Body.


def open_state(
    text: bytes, block_cipher: aes.BlockCipher = encrypt_block
) -> tuple[Model, Layer | None]:
    version, body = image.within_frame(text, NUMBERS)
    if version == VERSION_1:
        raise image.Fault("Earlier")
    device = Model(block_cipher=block_cipher, profile=PROFILES[version])
    try:
        fields = Parameters(body)
        read_device(fields, device)
        layer = read_optional_layer(fields)
        fields.end()
    except (Refusal, Short):
        raise image.Fault("Body") from None
    return device, layer


def fault_of(text: bytes) -> str | None:
    try:
        open_state(text)
    except image.Fault as fault:
        return str(fault)
    return None


def yes_no(fields: Parameters) -> bool:
    return bool(fields.one_of(1, (0, 1), "VALUE"))


def optional(fields: Parameters, read: Callable[[Parameters], T]) -> T | None:
    return read(fields) if yes_no(fields) else None


def read_device(fields: Parameters, device: Model) -> None:
    image.read_kept(fields, image.WRITTEN[device.profile], device)
    device.started = yes_no(fields)
    device.banks = {it: [fields.take(digest_bytes(it)) for _ in PCRS] for it in image.BANKS}
    device.update_counter, device.time = fields.number(8), fields.number(8)
    read_times(fields, device.lockout)
    for place in range(SESSIONS):
        session = optional(fields, read_session)
        if session is not None:
            device.sessions[HANDLE_KINDS[session.kind] << 24 | place] = session
    for place in range(OBJECTS):
        held = optional(fields, read_object)
        if held is not None:
            device.objects[TRANSIENT << 24 | place] = held


def read_times(fields: Parameters, lockout: Lockout) -> None:
    lockout.forgiving_time = fields.one_of(8, LOCKOUT_TIMES, "VALUE")
    lockout.closed_time = fields.one_of(8, LOCKOUT_TIMES, "VALUE")


def read_object(fields: Parameters) -> object_rules.Object:
    return image.read_object(fields, image.HIERARCHIES)


def read_session(fields: Parameters) -> Session:
    kind, algorithm = fields.one_of(1, HANDLE_KINDS, "VALUE"), fields.hash()
    cipher, masks = fields.symmetric()
    nonce_tpm, key = fields.sized(DIGEST_BYTES), fields.sized(DIGEST_BYTES)
    bound = optional(fields, read_binding)
    binding = bound or (name_of(RH_NULL), b"", None)
    kept = kind, algorithm, cipher, nonce_tpm, key
    session = Session(*kept, *binding, read_policy(fields), masks, bound is not None)
    check(has_hash_sizes(session))
    return session


def has_hash_sizes(session: Session) -> bool:
    """Whether nonceTPM, the key and the policy digest have sizes that the session's hash allows."""
    digest = digest_bytes(session.algorithm)
    key = digest if session.is_bound else 0
    sizes = len(session.key), len(session.policy.digest)
    return LEAST_NONCE <= len(session.nonce_tpm) <= digest and sizes == (key, digest)


def read_binding(fields: Parameters) -> tuple[bytes, bytes, str | None]:
    name, auth_value = fields.sized(object_rules.NAME_BYTES), image.read_auth_value(fields)
    return name, auth_value, PROTECTIONS[fields.one_of(1, range(len(PROTECTIONS)), "VALUE")]


def read_policy(fields: Parameters) -> State:
    return policy_state.State(
        digest=fields.sized(DIGEST_BYTES),
        update_counter=optional(fields, lambda it: it.number(8)),
        code=optional(fields, lambda it: it.number(4)),
        cp_hash=optional(fields, lambda it: it.sized(DIGEST_BYTES)),
        nv_written=optional(fields, yes_no),
        localities=fields.one_of(1, LOCALITY_BITS, "VALUE"),
        demand=DEMANDS[fields.one_of(1, range(len(DEMANDS)), "VALUE")],
    )


def read_optional_layer(fields: Parameters) -> Layer | None:
    kind = fields.one_of(1, LAYERS, "VALUE")
    if kind == NO_LAYER:
        return None
    layer = read_layer(fields)
    if kind == LAYER_WITH_SEQUENCES:
        layer.sequences = sequence_text.read_slots(fields)
    return layer


def read_layer(fields: Parameters) -> Layer:
    start, count = fields.number(8), fields.number(8)
    return Layer(start, count, [fields.number(8) for _ in range(SESSIONS)])
