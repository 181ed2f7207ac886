"""Bodies of state texts with one error each, paired with the most similar good body; and the
largest body.
"""

from dataclasses import replace

from tpmsim.model import sequence_text, state_text
from tpmsim.model.hash_states import HmacState
from tpmsim.model.image import DIGEST_AT_END, HEAD_BYTES
from tpmsim.model.machine import SESSIONS
from tpmsim.model.object_commands import OBJECTS
from tpmsim.model.policy_state import Session, State
from tpmsim.model.protection import LOCKOUT_AUTH
from tpmsim.model.sequences import HmacSequence, SequenceObject, SEQUENCES
from tpmsim.model.state_text import Layer
from tpmsim.standard import AES, DIGEST_BYTES, POLICY_SESSION, RH_LOCKOUT, SE_POLICY, SHA256
from tpmsim.standard import number, sized
from tests.images import image_bodies, worked_state

HMAC, BOUND, OBJECT = 0x0200_0001, 0x0300_0002, 0x8000_0000
MOST_TIME = 1000 * 2**32

# The size of a layer without its sequence objects.
LAYER_BYTES = 8 * (2 + SESSIONS)


def largest():
    """Returns a device whose fields are all as large as possible, and its completing layer
    (`--complete`).
    """
    device = image_bodies.largest()
    told = State(bytes(32), 1, 1, bytes(32), True)
    bound = bytes(34), b"v" * 32, LOCKOUT_AUTH
    session = Session(SE_POLICY, SHA256, AES, bytes(32), bytes(32), *bound, told, is_bound=True)
    device.sessions = {POLICY_SESSION << 24 | at: session for at in range(SESSIONS)}
    held = device.objects[image_bodies.FIRST]
    device.objects |= {OBJECT + at: held for at in range(OBJECTS)}
    held = SequenceObject.of(b"", HmacSequence(HmacState.of_key(SHA256, b"")))
    return device, Layer(sequences=[held] * SEQUENCES)


def body_of(device, layer=None):
    return state_text.state_text(device, layer)[HEAD_BYTES:-DIGEST_AT_END]


def changed(change):
    """Returns the body of worked_state.py's device after `change` has changed the device."""
    device = worked_state.device()
    change(device)
    return body_of(device)


def of_session(handle=BOUND, **fields):
    def change(device):
        device.sessions[handle] = replace(device.sessions[handle], **fields)

    return changed(change)


def of_policy(handle=BOUND, **fields):
    session = worked_state.device().sessions[handle]
    return of_session(handle, policy=replace(session.policy, **fields))


def size_pairs():
    """Yields bodies with sizes that a session's hash does not allow. The bound session has SHA-256,
    and the HMAC session SHA-1.
    """
    for handle, sizes in ((BOUND, ((15, 16), (33, 32))), (HMAC, ((15, 16), (21, 20)))):
        for size, near in sizes:
            bodies = (of_session(handle, nonce_tpm=bytes(it)) for it in (size, near))
            yield f"a nonce of {size} bytes in {handle:08x}", *bodies
    for handle, near in ((BOUND, 32), (HMAC, 0)):
        for size in sorted({0, 1, 19, 20, 21, 31, 32, 33} - {near}):
            bodies = (of_session(handle, key=bytes(it)) for it in (size, near))
            yield f"a key of {size} bytes in {handle:08x}", *bodies
    for handle, near in ((BOUND, 32), (HMAC, 20)):
        for size in sorted({0, 20, 32, 33} - {near}):
            bodies = (of_policy(handle, digest=bytes(it)) for it in (size, near))
            yield f"a policy digest of {size} bytes in {handle:08x}", *bodies


def of_lockout(**fields):
    return changed(lambda device: vars(device.lockout).update(fields))


def of_object(kind=None, **fields):
    def change(device):
        held = replace(device.objects[OBJECT], **fields)
        if kind is not None:
            held = replace(held, sensitive=replace(held.sensitive, kind=kind))
        device.objects[OBJECT] = held

    return changed(change)


def spelled(bad, good):
    """Returns two bodies of worked_state.py's device: the one in which `bad` replaces `good`, and
    the unchanged one, which contains `good` exactly once.
    """
    body = body_of(worked_state.device())
    assert body.count(good) == 1
    return body.replace(good, bad), body


def session_pairs():
    bind = worked_state.device().sessions[BOUND]
    policy, bound = state_text.policy_text(bind.policy), state_text.binding_text(bind)
    session = state_text.session_text(bind)
    yield "a session of type 2", *spelled(b"\2" + session[1:], session)
    yield "a session of the hash NULL", *spelled(session[:1] + b"\0\x10" + session[3:], session)
    yield from size_pairs()
    yield "a binding that is there by 2", *spelled(b"\2" + bound, b"\1" + bound)
    yield "a bound Name of 35 bytes", of_session(bind=bytes(35)), of_session(bind=bytes(34))
    for value, near in ((b"a\0", b"a"), (b"a" * 33, b"a" * 32)):
        words = f"a bound authorization value {value[-2:]!r} of {len(value)} bytes"
        yield words, of_session(bind_auth=value), of_session(bind_auth=near)
    yield "a protection of 3", *spelled(bound[:-1] + b"\3", bound)
    yield "a cpHash of 33 bytes", of_policy(cp_hash=bytes(33)), of_policy(cp_hash=bytes(32))
    yield "localities of 32", of_policy(localities=32), of_policy(localities=31)
    yield "a demand of 3", *spelled(policy[:-1] + b"\3", policy)


def place_pairs():
    """Yields bodies with a missing or extra slot, so that all later slots are parsed at wrong
    offsets.
    """
    body = body_of(worked_state.device())
    session = state_text.optional_text(
        worked_state.device().sessions[HMAC], state_text.session_text
    )
    yield "two sessions in one place", *spelled(session + session[1:], session)
    at = body.index(session) - 1
    yield "17 places of sessions", body[:at] + b"\0" + body[at:], body
    yield "15 places of sessions", body[:at] + body[at + 1 :], body
    yield "17 sessions", body[:at] + 17 * session + body[at + 1 + len(session) :], body


def sequence_pairs():
    """Yields bodies with an error in the slots for sequence objects."""
    device, layer = worked_state.device(), worked_state.layer_with_sequences()
    good, slots = body_of(device, layer), len(worked_state.written(worked_state.SEQUENCES))
    front, hashing = good[:-slots], worked_state.sequences()[0]
    at, behind = len(front), len(sequence_text.slots_text([hashing]))
    yield "a sequence of kind 4", front + b"\4" + good[at + 1 :], good
    hash_at = at + 1 + DIGEST_BYTES
    yield "a sequence of the hash NULL", good[:hash_at] + b"\0\x10" + good[hash_at + 2 :], good
    last = at + behind - 1
    yield "data that begin in way 6", good[:last] + b"\6" + good[last + 1 :], good
    yield "two slots for sequences", front + good[last + 1 :], good
    yield "four slots for sequences", good + b"\0", good
    yield "cut sequences", good[:-1], good
    first = body_of(device, Layer(sequences=[hashing, None, None]))
    yield "no sequence in three slots", first[: -behind - 2] + bytes(3), first
    kind = at - LAYER_BYTES - 1
    yield "a layer of kind 3", good[:kind] + b"\3" + good[kind + 1 :], good
    yield "slots behind a layer of kind 1", good[:kind] + b"\1" + good[kind + 1 :], good
    yield "no slots behind a layer of kind 2", front, good


def pairs():
    """Yields the description of an error, the body with this error, and the most similar good body."""
    yield from session_pairs()
    yield from place_pairs()
    for name in ("forgiving_time", "closed_time"):
        words = f"a {name.replace('_', ' ')} of 2^32 seconds"
        yield words, of_lockout(**{name: MOST_TIME}), of_lockout(**{name: MOST_TIME - 1})
    yield "an object of lockout", of_object(hierarchy=RH_LOCKOUT), of_object()
    yield "a sensitive area of another type", of_object(kind=0x0025), of_object()
    name = worked_state.device().objects[OBJECT].qualified_name
    yield "a qualified Name of 35 bytes", *spelled(sized(name + b"\0"), sized(name))
    device, layer = worked_state.device(), worked_state.layer()
    good = body_of(device, layer)
    yield "a layer of 17 numbers", good[:-8], good
    yield "a layer of 19 numbers", good + number(0, 8), good
    yield "no byte for the layer", body_of(device)[:-1], body_of(device)
    yield from sequence_pairs()
    yield "a byte behind", body_of(device) + b"\0", body_of(device)
    yield "no body", b"", body_of(device)
