"""HMAC sessions in commands on sequences: computes the HMACs for the other TPM, and checks those of
its responses.
"""

from __future__ import annotations

from dataclasses import dataclass, replace
from typing import TYPE_CHECKING

from tpmsim.caller.entries import flipped, Session
from tpmsim.model import sequence_commands
from tpmsim.model.general import Refusal
from tpmsim.model.sequence_commands import HMAC_START
from tpmsim.model.sequence_sessions import SessionUse
from tpmsim.standard import CONTINUE_SESSION, Fields, frames, HEADER_BYTES

if TYPE_CHECKING:
    from tpmsim.compare.translation import Translation


@dataclass(frozen=True)
class Sent:
    """A command on sequences for the other TPM. `here` is the handle of its session on this device,
    and `session` is the session on the other TPM.
    """

    here: int
    session: Session
    use: SessionUse

    @property
    def ends(self) -> bool:
        """Whether the command ends the session."""
        return not self.use.entry.attributes & CONTINUE_SESSION

    def received(self, response: bytes) -> bool:
        """Notes the new nonce in a successful response. Returns whether the response's HMAC is
        right.
        """
        fields = Fields(response[HEADER_BYTES:])
        if self.use.code == HMAC_START:
            fields.number(4)
        parameters, rest = fields.take(fields.number(4)), fields.data
        self.session.nonce_tpm = fields.sized()
        return rest.startswith(self.use.answer(parameters, self.session.nonce_tpm))


def use_here(translation: Translation, buffer: bytes) -> SessionUse | None:
    """Returns the session in the first entry of a command on this device, if this device compares
    the HMAC of that entry.
    """
    model, slots = translation.here.model, translation.here.layer.sequences
    if not model.started:
        return None
    try:
        found = sequence_commands.served(model, slots, buffer, "COMMAND_CODE")
    except Refusal:
        return None
    return found.use if isinstance(found, sequence_commands.Sent) else None


def use_there(
    translation: Translation, use: SessionUse, session: Session, handles: list[int]
) -> SessionUse:
    """Returns the use of the session on the other TPM, where the command has these handles. Its
    HMAC is right if that on this device is right.
    """
    known, value = translation.known, use.auth_value
    names = tuple(name and known.name(it) for name, it in zip(use.names, handles))
    if value and names[0]:
        value = known.auth_value(handles[0])
    keyed = replace(use.session, key=session.key, nonce_tpm=session.nonce_tpm)
    there = replace(use, session=keyed, names=names, auth_value=value)
    hmac = use.entry.hmac
    if len(hmac) == len(there.hmac):
        hmac = there.hmac if use.is_right else flipped(there.hmac)
    return replace(there, entry=replace(use.entry, handle=session.handle, hmac=hmac))


def sent(translation: Translation, buffer: bytes, handles: list[int]) -> Sent | None:
    """Returns the command for the other TPM, where it has these handles; None if no session of the
    other TPM belongs to it.
    """
    use = use_here(translation, buffer)
    if use is None:
        return None
    session = translation.sessions.get(translation.handle(use.entry.handle))
    if session is None:
        return None
    return Sent(use.entry.handle, session, use_there(translation, use, session, handles))


def with_entry(buffer: bytes, count: int, use: SessionUse) -> bytes:
    """Returns a command with `count` handles and with another first entry of the same size."""
    it, at = use.entry, HEADER_BYTES + 4 * count + 4
    entry = frames.entry(it.handle, it.nonce, it.attributes, it.hmac)
    return buffer[:at] + entry + buffer[at + len(entry) :]
