"""The checks that come first for every command (docs/table/order_of_refusals.md)."""

from __future__ import annotations

from dataclasses import dataclass
from functools import cached_property, partial
from typing import Any, TYPE_CHECKING

from tpmsim.faults import TpmsimError
from tpmsim.standard import CC, COMMAND_BYTES, DECRYPT, ENCRYPT, Entry, Fact, Fields, first_byte
from tpmsim.standard import frames, Handle, HEADER_BYTES, is_index, is_policy, is_session
from tpmsim.standard import MOST_ENTRIES, PERSISTENT, Profile, RS_PW, Short, TRANSIENT
from tpmsim.standard.frames import AUDIT, AUDIT_EXCLUSIVE, AUDIT_RESET, RESERVED
from tpmsim.standard.handle_kinds import IS_OF_KIND

if TYPE_CHECKING:
    from tpmsim.model.policy_state import Session
    from tpmsim.model.parameters import Held

# The size of authorizationSize, and its least value; and the largest size of a nonce or an hmac.
SIZE_BYTES, LEAST_AREA, MOST_NONCE_OR_HMAC = 4, 9, 32

# The checks of a command's header, before the command's code is known.
HEADER_CHECKS = "G1", "G2", "G3", "G4"


class Refusal(TpmsimError):
    """A refusal of a command: a code such as HASH/p1, and a check such as G11 or A1. `touched` says
    which dictionary attack protection counts it as a failed try, if any. `operands` are the values
    that the check compared, by name. If a check has several reasons to refuse, the operand `case`
    names the reason.
    """

    def __init__(self, name: str, check: str, touched: str | None = None, **operands: Any) -> None:
        super().__init__(name)
        self.name, self.check, self.touched, self.operands = name, check, touched, operands


@dataclass
class Command:
    """The command that a buffer encodes; `entries` is None for a command without sessions."""

    code: CC
    handles: list[int]
    entries: list[Entry] | None
    parameters: bytes

    @cached_property
    def places(self) -> list[tuple[int, Entry, int | None]]:
        """Returns each entry with its number and the handle that it authorizes, if any."""
        entries = self.entries or []
        authorized = [*self.handles[: self.code.authorized], *[None for _ in entries]]
        return [(at, *both) for at, both in enumerate(zip(entries, authorized), 1)]

    def others(self, place: int, handle: int | None) -> list[int]:
        """If the entry at `place` is the first one and authorizes a handle, returns the sessions of
        the other entries that decrypt or encrypt; otherwise none.
        """
        if place != 1 or handle is None:
            return []
        found = [self.with_attribute(it) for it in (DECRYPT, ENCRYPT)]
        return list(dict.fromkeys(it[1].handle for it in found if it and it[0] != 1))

    def with_attribute(self, attribute: int) -> tuple[int, Entry, int | None] | None:
        """Returns the entry that decrypts or encrypts, its number, and the handle that it
        authorizes; None if no entry does.
        """
        for place, entry, handle in self.places:
            if entry.attributes & attribute:
                return place, entry, handle
        return None


@dataclass
class Answer:
    parameters: bytes = b""
    handle: bytes = b""
    drawn: int = 0


def read_header(fields: Fields, length: int, profile: Profile) -> tuple[int, CC]:
    if length < HEADER_BYTES:
        raise Refusal("COMMAND_SIZE", "G1", case="short", size=length, least=HEADER_BYTES)
    if length > COMMAND_BYTES:
        raise Refusal("COMMAND_SIZE", "G1", case="long", size=length, most=COMMAND_BYTES)
    tag, size, code = frames.HEADER.unpack(fields.take(HEADER_BYTES))
    if tag not in (frames.NO_SESSIONS, frames.SESSIONS):
        raise Refusal("BAD_TAG", "G2", tag=tag)
    if size != length:
        raise Refusal("COMMAND_SIZE", "G3", said=size, size=length)
    if code not in profile.commands:
        raise Refusal("COMMAND_CODE", "G4", number=code)
    return tag, profile.commands[code]


def read_handles(fields: Fields, wanted: tuple[Handle, ...], device: Held) -> list[int]:
    handles, objects = [], device.objects
    for place, it in enumerate(wanted, 1):
        refusal = partial(Refusal, check="G6", place=place, wanted=it)
        try:
            handle = fields.number(4)
        except Short:
            raise refusal(f"INSUFFICIENT/h{place}", left=len(fields.data)) from None
        if not IS_OF_KIND[it.kind](handle):
            raise refusal(f"VALUE/h{place}", handle=handle)
        if is_policy(handle) and handle not in device.sessions:
            raise refusal(f"REFERENCE_H{place - 1}", handle=handle)
        if first_byte(handle) == TRANSIENT and handle not in objects:
            raise refusal(f"REFERENCE_H{place - 1}", handle=handle)
        if is_index(handle) and handle not in device.indices:
            raise refusal(f"HANDLE/h{place}", handle=handle)
        if first_byte(handle) == PERSISTENT and handle not in objects:
            raise refusal(f"HANDLE/h{place}", handle=handle)
        handles.append(handle)
    return handles


def read_area(fields: Fields) -> list[Entry]:
    left = len(fields.data)
    if left < SIZE_BYTES:
        raise Refusal("AUTHSIZE", "G8", case="cut", left=left)
    size, left = fields.number(SIZE_BYTES), left - SIZE_BYTES
    if size < LEAST_AREA:
        raise Refusal("AUTHSIZE", "G8", case="short", size=size, least=LEAST_AREA)
    if size > left:
        raise Refusal("AUTHSIZE", "G8", case="long", size=size, left=left)
    entries = read_entries(Fields(fields.take(size)))
    if len(entries) > MOST_ENTRIES:
        raise Refusal("AUTHSIZE", "G8", case="many", count=len(entries), most=MOST_ENTRIES)
    return entries


def read_entries(area: Fields) -> list[Entry]:
    entries: list[Entry] = []
    while left := len(area.data):
        try:
            entries.append(frames.read_entry(area))
        except Short:
            place = len(entries) + 1
            raise Refusal("AUTHSIZE", "G8", case="entry", place=place, left=left) from None
    return entries


def check_entry(
    command: Command, place: int, entry: Entry, handle: int | None, sessions: dict[int, Session]
) -> None:
    refusal = partial(Refusal, check="G8", place=place, entry=entry)
    is_password = entry.handle == RS_PW
    hmac = "password" if is_password else "hmac"
    for field, data in ("nonceCaller", entry.nonce), (hmac, entry.hmac):
        if len(data) > MOST_NONCE_OR_HMAC:
            raise refusal(f"SIZE/s{place}", case=field, size=len(data), most=MOST_NONCE_OR_HMAC)
    if not is_password and not is_session(entry.handle):
        raise refusal(f"VALUE/s{place}")
    if not is_password and entry.handle not in sessions:
        raise refusal(f"REFERENCE_S{place - 1}", handle=entry.handle)
    if is_password and handle is None:
        raise refusal(f"HANDLE/s{place}", case="password", authorized=command.code.authorized)
    same = [at for at, it, _ in command.places[: place - 1] if it.handle == entry.handle]
    if same and not is_password:
        raise refusal(f"HANDLE/s{place}", case="session", other=same[0])
    check_attributes(command, place, entry)
    encrypts = entry.attributes & (DECRYPT | ENCRYPT)
    if encrypts and sessions[entry.handle].cipher == frames.ALG_NULL:
        raise refusal(f"SYMMETRIC/s{place}")


def check_attributes(command: Command, place: int, entry: Entry) -> None:
    refusal = partial(Refusal, check="G8", place=place, entry=entry)
    if entry.attributes & RESERVED:
        raise refusal(f"RESERVED_BITS/s{place}")
    if entry.attributes & (AUDIT_EXCLUSIVE | AUDIT_RESET | AUDIT):
        raise refusal(f"ATTRIBUTES/s{place}", case="audit")
    for name, bit, has_buffer in (
        ("decrypt", DECRYPT, command.code.takes_sized),
        ("encrypt", ENCRYPT, command.code.answers_sized),
    ):
        if not entry.attributes & bit:
            continue
        same = [at for at, it, _ in command.places[: place - 1] if it.attributes & bit]
        if entry.handle == RS_PW:
            raise refusal(f"ATTRIBUTES/s{place}", case="password")
        if same:
            raise refusal(f"ATTRIBUTES/s{place}", case="other", attribute=name, other=same[0])
        if not has_buffer:
            raise refusal(f"ATTRIBUTES/s{place}", case=name)


def decode(buffer: bytes, device: Held) -> Command:
    """Decodes a buffer's command; raises the first refusal that does not depend on an authorization
    value.
    """
    fields = Fields(buffer)
    tag, code = read_header(fields, len(buffer), device.profile)
    if device.started == (code == CC.Startup):
        raise Refusal("INITIALIZE", "G5", case="again" if device.started else "first", number=code)
    handles = read_handles(fields, code.handles, device)
    if tag == frames.SESSIONS and code.has(Fact.NO_SESSIONS):
        raise Refusal("AUTH_CONTEXT", "G7")
    if tag == frames.NO_SESSIONS and code.authorized:
        raise Refusal("AUTH_MISSING", "G7")
    entries = read_area(fields) if tag == frames.SESSIONS else None
    command = Command(code, handles, entries, fields.data)
    for place, entry, handle in command.places:
        check_entry(command, place, entry, handle, device.sessions)
    return command
