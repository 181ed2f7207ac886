"""A command that is ready to be sent, the sessions of its entries, and its outcome."""

from __future__ import annotations

from dataclasses import dataclass, replace
from functools import cached_property
from typing import Any, Union

from tpmsim.faults import TpmsimError
from tpmsim.standard import ALG_NULL, CC, CONTINUE_SESSION, DECRYPT, ENCRYPT, Entry, frames
from tpmsim.standard import SE_HMAC, Short
from tpmsim.standard.frames import spelled_code
from tpmsim.standard.objects import Public
from tpmsim.standard.values import read_all


@dataclass
class Session:
    """A session as its caller knows it. `bind` is the Name of its bind entity."""

    handle: int
    algorithm: int
    nonce_tpm: bytes
    key: bytes
    bind: bytes
    bind_auth: bytes
    kind: int = SE_HMAC
    cipher: int = ALG_NULL

    @property
    def decrypting(self) -> Use:
        """Returns a use of the session that encrypts the command's first parameter, which the
        device decrypts.
        """
        return Use(self, CONTINUE_SESSION | DECRYPT)

    @property
    def encrypting(self) -> Use:
        """Returns a use of the session that has the device encrypt the response's first parameter."""
        return Use(self, CONTINUE_SESSION | ENCRYPT)


@dataclass
class Use:
    """The use of a session in an entry. An hmac whose key is empty may be left out; if
    `shows_empty_key` is set, it is sent. `demand` is what the session's policy demands.
    """

    session: Session
    attributes: int = CONTINUE_SESSION
    nonce: bytes | None = None
    shows_empty_key: bool = False
    demand: str | None = None


@dataclass(frozen=True)
class Made:
    """The areas that TPM2_Create returned, which TPM2_Load needs, and the requested authorization
    value.
    """

    private: bytes
    public: Public
    auth_value: bytes


# What authorizes a handle: the bytes of a password, a session, or a use of a session.
Means = Union[bytes, Session, Use]


@dataclass
class Prepared:
    """A command that is ready to be sent. `entries` and `uses` have the same order."""

    code: CC
    handles: list[int]
    parameters: bytes
    uses: list[bytes | Use]
    entries: list[Entry]

    def buffer(self) -> bytes:
        """Returns the bytes of the command."""
        return frames.buffer_of(self.code, self.handles, self.entries, self.parameters)

    def authorized(self, place: int) -> int | None:
        """Returns the handle that an entry authorizes, if any; entries are counted from 1."""
        return self.handles[place - 1] if place <= self.code.authorized else None

    def but(self, **changes: Any) -> Prepared:
        """Returns the command with changed parameters or handles, but with the same hmacs."""
        return replace(self, **changes)

    def but_entry(self, place: int, **changes: Any) -> Prepared:
        """Returns the command with changed fields of one entry, counted from 1."""
        entries = list(self.entries)
        entries[place - 1] = replace(entries[place - 1], **changes)
        return replace(self, entries=entries)


def flipped(data: bytes, at: int = -1) -> bytes:
    """Returns the data with one bit flipped, by default in the last byte."""
    changed = bytearray(data)
    changed[at] ^= 0x01
    return bytes(changed)


def wrong(prepared: Prepared, place: int = 1) -> Prepared:
    """Returns the command with one bit flipped in an entry's HMAC or password. If the HMAC or
    password is empty, adds one byte.
    """
    hmac = prepared.entries[place - 1].hmac
    return prepared.but_entry(place, hmac=flipped(hmac) if hmac else b"\1")


def shown(value: object) -> str:
    """Returns a value as a response shows it: bytes in hex."""
    if isinstance(value, list):
        return f"[{', '.join(map(shown, value))}]"
    return value.hex() or "empty" if isinstance(value, bytes) else repr(value)


@dataclass(frozen=True, repr=False)
class Response:
    """The successful response to a command. Its decrypted parameters are named as in Part 3, as in
    `response["randomBytes"]`; docs/table describes each one. A wrong name raises KeyError, which
    lists the right names. The response class of each command, such as GetRandomResponse, also has
    the parameters as attributes: `response.randomBytes`.
    """

    code: CC
    handle: int | None
    parameters: bytes

    @cached_property
    def fields(self) -> dict[str, Any]:
        """All parameters by name."""
        return read_all(self.code.answered_parameters, self.parameters)

    def __repr__(self) -> str:
        handle = [] if self.handle is None else [f"handle={self.handle:08x}"]
        try:
            values = [f"{name}={shown(value)}" for name, value in self.fields.items()]
        except (Short, ValueError):
            values = [f"parameters={shown(self.parameters)}"]
        return f"{self.code.name}Response({', '.join([*handle, *values])})"

    def __getitem__(self, name: str) -> Any:
        if name not in self.fields:
            raise KeyError(f"{self.code.name} answers {', '.join(self.fields) or 'nothing'}")
        return self.fields[name]


class Refused(TpmsimError):
    """A command that the device refuses. `number` is the response code, and `name` the code's name,
    which is empty if it is unknown here. `place` is the parameter, handle or session that the code
    names, such as p1, h2 or s1, or empty. `check` is the check that refused the command, such as G9
    or A1, if a trace reports it.
    """

    def __init__(self, prepared: Prepared, number: int, check: str | None = None) -> None:
        self.prepared, self.number, self.check = prepared, number, check
        self.name, self.place = spelled_code(number)
        super().__init__(str(self))

    @property
    def code(self) -> str:
        """The name of the response code with its place, such as VALUE/p1."""
        return f"{self.name}/{self.place}" if self.place else self.name

    def __str__(self) -> str:
        check = f", by {self.check}" if self.check else ""
        return f"{self.prepared.code.name}: {self.code or 'unknown'} ({self.number:03X}){check}"
