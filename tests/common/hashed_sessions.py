"""HMAC sessions whose keys and HMACs are computed with hashlib and hmac alone, and the commands on
sequences that they authorize.
"""

import hashlib
import hmac
from collections.abc import Callable
from dataclasses import dataclass
from typing import Any

from tpmsim.standard import ALG_NULL, CC, command, CONTINUE_SESSION, entry, Fields, number
from tpmsim.standard import on_handles, RH_NULL, SHA1, SHA256, sized
from tests.common.layer_commands import COMPLETE, EVENT_COMPLETE, HMAC_START, UPDATE

HASHES = {SHA1: "sha1", SHA256: "sha256"}

# The size of a header.
HEAD = 10


def name_of(public: bytes) -> bytes:
    """Returns the Name of an object with this public area, whose nameAlg is SHA-256."""
    return number(SHA256, 2) + hashlib.sha256(public).digest()


def kdfa(name: str, key: bytes, label: bytes, newer: bytes, older: bytes, size: int) -> bytes:
    """Computes KDFa for `size` bytes, with HMAC in the counter mode of SP 800-108. Each block is
    the HMAC of its number, the label, 0, both nonces, and the number of bits.
    """
    made, block = b"", 0
    while len(made) < size:
        block += 1
        text = number(block, 4) + label + b"\0" + newer + older + number(8 * size, 4)
        made += hmac.digest(key, text, name)
    return made[:size]


class HashedSession:
    """An HMAC session. `send` sends a command, and returns the response. The session is bound to
    the entity `bind`, which has the authorization value `value`.

    The methods that return commands pass their last arguments to `entry`.
    """

    def __init__(
        self,
        send: Callable[[bytes], bytes],
        algorithm: int = SHA256,
        bind: int = RH_NULL,
        value: bytes = b"",
    ) -> None:
        self.send, self.hash, self.count = send, HASHES[algorithm], 0
        self.size = hashlib.new(self.hash).digest_size
        newer = self.next_nonce()
        head = number(RH_NULL, 4) + number(bind, 4) + sized(newer) + sized(b"")
        parameters = head + b"\0" + number(ALG_NULL, 2) + number(algorithm, 2)
        response = send(command(CC.StartAuthSession, parameters))
        self.handle, self.nonce_tpm = int.from_bytes(response[HEAD:14], "big"), response[16:]
        self.key = b""
        if bind != RH_NULL:
            self.key = kdfa(self.hash, value, b"ATH", self.nonce_tpm, newer, self.size)

    def next_nonce(self) -> bytes:
        self.count += 1
        return number(self.count, self.size)

    def entry(
        self,
        code: int,
        names: list[bytes],
        parameters: bytes,
        value: bytes = b"",
        attributes: int = CONTINUE_SESSION,
        own: bytes | None = None,
    ) -> bytes:
        """Returns this session's entry in a command. `names` are the Names of the handles, and
        `value` is the authorization value in the key of the HMAC. With `own`, this is the HMAC.
        """
        self.newer, self.attributes = self.next_nonce(), attributes
        digest = hashlib.new(self.hash, number(code, 4) + b"".join(names) + parameters).digest()
        if own is None:
            text = digest + self.newer + self.nonce_tpm + bytes([attributes])
            own = hmac.digest(self.key + value, text, self.hash)
        self.is_empty = not own
        return entry(self.handle, self.newer, attributes, own)

    def command(
        self,
        code: int,
        handles: list[int],
        names: list[bytes],
        parameters: bytes,
        *others: bytes,
        **given: Any,
    ) -> bytes:
        """Returns a command with this session's entry first, followed by other entries."""
        entries = [self.entry(code, names, parameters, **given), *others]
        return on_handles(code, handles, parameters, entries)

    def hmac_start(
        self, key: int, name: bytes, auth: bytes = b"", algorithm: int = ALG_NULL, **given: Any
    ) -> bytes:
        """Returns TPM2_HMAC_Start by the session, with a key that has this Name."""
        parameters = sized(auth) + number(algorithm, 2)
        return self.command(HMAC_START, [key], [name], parameters, **given)

    def event_complete(
        self, pcr: int, handle: int, data: bytes = b"", password: bytes = b"", **given: Any
    ) -> bytes:
        """Returns TPM2_EventSequenceComplete. The session authorizes the PCR, and the password
        authorizes the sequence.
        """
        names, other = [number(pcr, 4), b""], entry(hmac=password)
        return self.command(EVENT_COMPLETE, [pcr, handle], names, sized(data), other, **given)

    def answer(
        self, code: int, response: bytes, value: bytes = b"", handles: int = 0
    ) -> tuple[bytes, bytes]:
        """Checks this session's entry in a successful response, with `handles` handles before the
        parameters. Returns the parameters, and the bytes after the entry.
        """
        assert response[:2] == b"\x80\x02" and not any(response[6:HEAD]), response.hex()
        assert int.from_bytes(response[2:6], "big") == len(response)
        fields = Fields(response[HEAD + 4 * handles :])
        parameters = fields.take(fields.number(4))
        self.nonce_tpm, attributes, given = fields.sized(), fields.number(1), fields.sized()
        assert attributes == self.attributes
        digest = hashlib.new(self.hash, bytes(4) + number(code, 4) + parameters).digest()
        text = digest + self.nonce_tpm + self.newer + bytes([attributes])
        right = b"" if self.is_empty else hmac.digest(self.key + value, text, self.hash)
        assert given == right, "the HMAC of the response"
        return parameters, fields.data

    def accepted(self, buffer: bytes, value: bytes = b"", handles: int = 0) -> tuple[bytes, bytes]:
        """Sends a command with this session's entry first, and checks the response as `answer`."""
        code = int.from_bytes(buffer[6:HEAD], "big")
        return self.answer(code, self.send(buffer), value, handles)

    def started(
        self, key: int, name: bytes, value: bytes, auth: bytes = b"", **given: Any
    ) -> "Guarded":
        """Starts an HMAC. `value` is the authorization value in the keys of HMACs. Returns the
        sequence, whose own value is `auth`.
        """
        response = self.send(self.hmac_start(key, name, auth, value=value, **given))
        assert self.answer(HMAC_START, response, value, handles=1) == (b"", b"")
        return Guarded(self, int.from_bytes(response[HEAD:14], "big"), auth)


@dataclass
class Guarded:
    """A sequence that a session authorizes. `value` is the sequence's authorization value. The
    methods pass their last arguments to HashedSession.entry.
    """

    session: HashedSession
    handle: int
    value: bytes = b""

    def command(self, code: int, parameters: bytes, name: bytes = b"", **given: Any) -> bytes:
        given = {"value": self.value} | given
        return self.session.command(code, [self.handle], [name], parameters, **given)

    def update(self, data: bytes, **given: Any) -> bytes:
        """Returns TPM2_SequenceUpdate."""
        return self.command(UPDATE, sized(data), **given)

    def complete(self, data: bytes = b"", hierarchy: int = RH_NULL, **given: Any) -> bytes:
        """Returns TPM2_SequenceComplete."""
        return self.command(COMPLETE, sized(data) + number(hierarchy, 4), **given)

    def updated(self, data: bytes, **given: Any) -> None:
        answer = self.session.accepted(self.update(data, **given), self.value)
        assert answer == (b"", b""), "the answer to an update"

    def completed(self, data: bytes, **given: Any) -> bytes:
        """Returns the digest or the HMAC."""
        parameters, rest = self.session.accepted(self.complete(data, **given), self.value)
        assert not rest, "the answer to a complete"
        return Fields(parameters).sized()
