"""Changes of the sessions that a command uses or changes."""

from __future__ import annotations

import itertools
from typing import Any, Iterator

from tpmsim.model.machine import HANDLE_KINDS, Model, PLACE_BITS
from tpmsim.model.policy_state import Session
from tpmsim.model.protection import TRIES
from tpmsim.refuse.change import Asked, Change, hexed, OTHER_VALUE
from tpmsim.standard import ALG_NULL, CC, digest, digest_bytes, policy, SE_HMAC, SE_POLICY
from tpmsim.standard import SE_TRIAL

# The commands of which a policy may name another one.
OTHER_COMMANDS = CC.NV_UndefineSpace, CC.Clear


def on_session(words: str, handle: int, **fields: Any) -> Change:
    """Returns the change that sets fields of a session."""

    def act(model: Model) -> None:
        for name, value in fields.items():
            setattr(model.sessions[handle], name, value)

    return Change(f"session {hexed(handle)} {words}", act)


def on_policy(words: str, handle: int, **fields: Any) -> Change:
    """Returns the change that sets fields of a session's policy."""

    def act(model: Model) -> None:
        for name, value in fields.items():
            setattr(model.sessions[handle].policy, name, value)

    return Change(f"session {hexed(handle)} {words}", act)


def flushed(handle: int) -> Change:
    return Change(f"session {hexed(handle)} is gone", lambda it: remove(it, handle))


def remove(model: Model, handle: int) -> None:
    model.sessions.pop(handle)


def of_other_kind(handle: int, session: Session) -> Change:
    """Returns the change that puts a session of the other kind into the slot."""
    kind = SE_POLICY if session.kind == SE_HMAC else SE_HMAC

    def act(model: Model) -> None:
        held = model.sessions.pop(handle)
        held.kind = kind
        model.sessions[HANDLE_KINDS[kind] << 24 | handle & PLACE_BITS] = held

    return Change(f"another session is in the slot of {hexed(handle)}", act)


def of_keys(handle: int, session: Session) -> Iterator[Change]:
    """Yields changes of what a session's HMACs depend on."""
    size = len(session.nonce_tpm)
    yield on_session("has another nonceTPM", handle, nonce_tpm=bytes(size))
    if session.is_bound:
        key = digest(session.algorithm, OTHER_VALUE)
        yield on_session("has another key", handle, key=key)
    if session.cipher != ALG_NULL:
        yield on_session("has no cipher", handle, cipher=ALG_NULL, masks=None)


def bound(handle: int, session: Session, protection: str | None) -> Change:
    """Returns the change after which a session is bound to a value, with another key."""
    words = "is bound to a protected value" if protection else "is bound to a free value"
    key = digest(session.algorithm, OTHER_VALUE)
    fields = {"is_bound": True, "key": key, "bind_auth": OTHER_VALUE}
    return on_session(words, handle, **fields, bind_protection=protection)


def bindings(model: Model, asked: Asked, *protections: str | None) -> Iterator[Change]:
    """Yields changes that bind each session of an entry to a value with each protection."""
    for entry, protection in itertools.product(asked.entries, protections):
        if entry.handle in model.sessions:
            yield bound(entry.handle, model.sessions[entry.handle], protection)


def demands(model: Model, asked: Asked) -> Iterator[Change]:
    """Yields a change after which each policy of an entry demands the authorization value."""
    for entry in asked.entries:
        if entry.handle in model.sessions and model.sessions[entry.handle].kind != SE_HMAC:
            demand = policy.AUTH_VALUE
            yield on_policy(f"demands the {demand}", entry.handle, demand=demand)


def of_counter(handle: int) -> Change:
    """Returns the change after which the policy compares PCRs that have changed since."""

    def act(model: Model) -> None:
        model.sessions[handle].policy.update_counter = model.update_counter
        model.update_counter += 1

    return Change(f"a PCR has changed since session {hexed(handle)} compared it", act)


def of_policy(handle: int, session: Session, locality: int) -> Iterator[Change]:
    """Yields changes of a policy session."""
    size = digest_bytes(session.algorithm)
    yield of_counter(handle)
    yield on_policy("has another policy digest", handle, digest=b"\x5a" * size)
    for code in OTHER_COMMANDS:
        yield on_policy(f"is for {code.name}", handle, code=int(code))
    if session.policy.code is not None:
        yield on_policy("is for no command", handle, code=None)
    yield on_policy("is for another cpHash", handle, cp_hash=b"\x5a" * size)
    for is_written in (True, False):
        words = "is for a written index" if is_written else "is for an unwritten index"
        yield on_policy(words, handle, nv_written=is_written)
    for other in range(5):
        if other != locality:
            yield on_policy(f"is for locality {other}", handle, localities=1 << other)
    for demand in (policy.AUTH_VALUE, policy.PASSWORD, None):
        if demand != session.policy.demand:
            yield on_policy(f"demands {demand or 'nothing'}", handle, demand=demand)
    if session.kind == SE_POLICY:
        yield on_session("is a trial session", handle, kind=SE_TRIAL)


def of_sessions(model: Model, asked: Asked, locality: int) -> Iterator[Change]:
    """Yields the changes of each session of the command, the least first."""
    for handle in asked.sessions(model):
        yield flushed(handle)
    for handle in asked.sessions(model):
        session = model.sessions[handle]
        if session.kind != SE_HMAC:
            yield from of_policy(handle, session, locality)
        yield from of_keys(handle, session)
        yield of_other_kind(handle, session)
    yield from bindings(model, asked, None, TRIES)
