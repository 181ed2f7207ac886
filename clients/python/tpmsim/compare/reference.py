"""Plays the unchanged script on this device, and finds out what the script's caller knew at each
command.
"""

from dataclasses import dataclass, field
from typing import Any

from tpmsim import records
from tpmsim.device import library
from tpmsim.device.base import Executed, Snapshot
from tpmsim.device.child import ChildDevice
from tpmsim.device.library import LibraryDevice
from tpmsim.device.told import Device
from tpmsim.model import image, state_text
from tpmsim.model.completion import Completion
from tpmsim.model.general import Command
from tpmsim.model.machine import MANUFACTURED, Model, Outcome
from tpmsim.model.object_rules import Object
from tpmsim.model.policy_state import Session
from tpmsim.model.protection import Lockout
from tpmsim.records import goes_on, opened
from tpmsim.standard import ALG_NULL, DECRYPT, ENCRYPT, Entry, Fields, frames, NUMBERED, Profile
from tpmsim.standard import sessions, SESSIONS, Short
from tpmsim.standard.frames import NO_SESSIONS
from tpmsim.standard.values import read_all


def parsed(buffer: bytes) -> Command | None:
    """Parses a buffer as a command, checking only its format; returns None if it is not one."""
    fields = Fields(buffer)
    try:
        tag, size, code = fields.number(2), fields.number(4), NUMBERED.get(fields.number(4))
        if code is None or size != len(buffer) or tag not in (NO_SESSIONS, SESSIONS):
            return None
        handles = [fields.number(4) for _ in code.handles]
        if tag == NO_SESSIONS:
            return Command(code, handles, None, fields.data)
        entries = list(frames.entries_of(fields.take(fields.number(4))))
    except Short:
        return None
    return Command(code, handles, entries, fields.data) if entries else None


@dataclass(frozen=True)
class Shown:
    """Why an entry was correct; `key` says whether the authorization value is in the key of the
    correct HMAC.
    """

    is_password: bool = False
    key: bool | None = None


@dataclass
class Received:
    """A TPM's response to a decrypted request, and what is wrong with the response's hmacs."""

    request: bytes = b""
    handle: int | None = None
    fields: dict[str, Any] = field(default_factory=dict)
    wrong: str | None = None


class Reference:
    """This device in two instances: one that responds, and a model in Python whose state can be
    read. The completing layer is above both.
    """

    event: Executed

    def __init__(self) -> None:
        self.model = Model()
        in_process = library.is_there()
        own: Device = LibraryDevice(manufactured=MANUFACTURED) if in_process else ChildDevice()
        self.device, self.layer = own, Completion()

    def execute(self, step: records.Command) -> Executed:
        """Executes a recorded command, with the completing layer if the record says so."""
        told = step.buffer, step.locality, step.random, step.elapsed
        if not step.completes:
            self.outcome(*told)
            self.layer.forget(self.model)
            return self.event
        done = self.layer.execute(self.model, told, self.outcome, self.place)
        return Executed(*(step.buffer, done.outcome.response, step.locality, step.elapsed))

    def outcome(self, buffer: bytes, locality: int, random: bytes, elapsed: int) -> Outcome:
        self.event = self.device.answer(buffer, locality, elapsed, random)
        outcome = self.model.execute(buffer, locality, random, elapsed)
        if outcome.response != self.event.response:
            raise AssertionError(f"the device in Python answers otherwise: {buffer.hex()}")
        return outcome

    def place(self, kept: Object) -> int | None:
        """Places the object of a context in both instances."""
        handle = self.model.place(kept)
        self.device.resume(Snapshot.of(state_text.state_text(self.model)))
        return handle

    def is_device_of(self, step: records.Begin) -> bool:
        if not goes_on(self.model, step.content):
            return False
        self.layer = opened(step.content, step.start).layer
        return True

    def open_empty(self, step: records.Begin) -> bool:
        """Continues with the device in a head, if that device was just powered on and contains only
        what a new device contains. Returns False for any other device, which is not opened.
        """
        begun = opened(step.content, step.start)
        found = begun.device
        text = image.image(found) if begun.is_state else step.content
        if state_text.state_text(image.open_image(text, profiles=Profile)) != state_text.state_text(
            found
        ):
            return False
        is_used = found.objects or found.indices or found.saved or any(found.auth_values.values())
        if is_used or found.disable_clear or found.lockout != Lockout():
            return False
        self.device.begin(text)
        self.model, self.layer = found, begun.layer
        return True

    def power_cycle(self) -> None:
        self.device.cycle()
        self.model.power_cycle()
        self.layer.forget(self.model)

    def shown(self, command: Command, place: int, entry: Entry, handle: int | None) -> Shown:
        """Returns why the entry of an existing session is correct, before the command is executed."""
        session, value = self.model.sessions[entry.handle], self.model.auth_value(handle)
        if handle is not None and session.policy.demand == "password":
            return Shown(is_password=sessions.trimmed(entry.hmac) == value)
        names = self.model.names(command)
        text = sessions.command_hash(session.algorithm, command.code, names, command.parameters)
        entries = [it for it in command.entries or [] if it.attributes & (DECRYPT | ENCRYPT)]
        are_there = all(it.handle in self.model.sessions for it in entries)
        others = self.model.nonces_of_others(command, place, handle) if are_there else []
        nonces = entry.nonce, session.nonce_tpm, others
        for has_value in (True, False):
            key = session.key + (value if has_value else b"")
            hmac = sessions.entry_hmac(session.algorithm, key, text, *nonces, entry.attributes)
            if hmac == entry.hmac:
                return Shown(key=has_value)
        return Shown()

    def plain(self, command: Command) -> bytes:
        """Returns the parameters of a command. They are decrypted if an entry has the attribute
        decrypt, its session exists and has a cipher, and the first parameter is a sized buffer.
        """
        found = command.with_attribute(DECRYPT)
        session = self.model.sessions.get(found[1].handle) if found else None
        is_encrypted = session and session.cipher != ALG_NULL and command.code.takes_sized
        if not found or not session or not is_encrypted:
            return command.parameters
        key = self.model.encryption_key(session, found[2])
        given = session.cipher, session.algorithm, key, found[1].nonce, session.nonce_tpm
        return sessions.first_decrypted(*given, command.parameters)

    def encrypting(self, command: Command) -> Session | None:
        """Returns the session that will encrypt the response; the command may end the session."""
        found = command.with_attribute(ENCRYPT)
        return self.model.sessions.get(found[1].handle) if found else None

    def received(self, command: Command, response: bytes, session: Session | None) -> Received:
        fields = Fields(response[10:])
        handle = fields.number(4) if command.code.answers_handle else None
        is_sized = command.entries is not None
        parameters = fields.take(fields.number(4)) if is_sized else fields.data
        found = command.with_attribute(ENCRYPT)
        if found and session:
            key = self.model.encryption_key(session, found[2])
            given = session.cipher, session.algorithm, key, session.nonce_tpm, found[1].nonce
            parameters = sessions.first_decrypted(*given, parameters)
        return Received(b"", handle, read_all(command.code.answered_parameters, parameters))
