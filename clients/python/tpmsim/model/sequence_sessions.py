"""HMAC sessions in commands on sequence objects (TPM 2.0 Library, Part 1, section 19.6).

The completing layer checks the HMAC of such a command. Then it sends the device another command
with the same session. So the device itself decides about the session, counts a failed try, and
replaces nonceTPM.
"""

from __future__ import annotations

from dataclasses import dataclass, replace

from tpmsim.model.policy_state import Session
from tpmsim.standard import Entry, Fields, first_byte, frames, HEADER_BYTES, sessions

# The HMAC in the command that the layer sends if the client's HMAC is wrong. The device refuses it,
# since no HMAC has one byte, and only an empty one may be accepted without being compared.
WRONG = b"\0"


def is_hmac_session(handle: int) -> bool:
    """Returns whether a handle is that of an HMAC session."""
    return first_byte(handle) == frames.HMAC_SESSION


@dataclass(frozen=True)
class SessionUse:
    """The entry of an HMAC session in a command, with the session as it was before the command.
    `names` are the Names of the command's handles; the Name of a sequence object is empty.
    `auth_value` is empty if the HMAC's key contains no authorization value.
    """

    session: Session
    entry: Entry
    code: int
    names: tuple[bytes, ...]
    parameters: bytes
    auth_value: bytes

    @property
    def key(self) -> bytes:
        return self.session.key + self.auth_value

    @property
    def hmac(self) -> bytes:
        """The correct HMAC."""
        algorithm = self.session.algorithm
        text = sessions.command_hash(algorithm, self.code, self.names, self.parameters)
        return self.of(text, self.entry.nonce, self.session.nonce_tpm)

    def of(self, text: bytes, newer: bytes, older: bytes) -> bytes:
        """Returns the HMAC of a command or a response, of which `text` is the hash."""
        given = self.session.algorithm, self.key, text, newer, older
        return sessions.entry_hmac(*given, [], self.entry.attributes)

    @property
    def is_right(self) -> bool:
        """Whether the HMAC is correct. An empty one is correct if the key is empty."""
        return self.entry.hmac == self.hmac or not (self.key or self.entry.hmac)

    def entry_for(self, sent: SessionUse) -> Entry:
        """Returns the entry for the command that the layer sends. Its HMAC is correct if and only
        if that of this command is.
        """
        if not self.is_right:
            return replace(self.entry, hmac=WRONG)
        return replace(self.entry, hmac=sent.hmac if self.entry.hmac else b"")

    def answer(self, parameters: bytes, nonce_tpm: bytes) -> bytes:
        """Returns the entry of the response, with the new nonceTPM. If the HMAC of the command was
        empty, that of the response is empty too.
        """
        algorithm, entry, hmac = self.session.algorithm, self.entry, b""
        if entry.hmac:
            text = sessions.response_hash(algorithm, self.code, parameters)
            hmac = self.of(text, nonce_tpm, entry.nonce)
        return frames.entry_answer(nonce_tpm, entry.attributes, hmac)


def nonce_in(response: bytes) -> bytes:
    """Returns the nonceTPM of the first entry in a response that has no handle."""
    fields = Fields(response[HEADER_BYTES:])
    fields.take(fields.number(4))
    return fields.sized()
