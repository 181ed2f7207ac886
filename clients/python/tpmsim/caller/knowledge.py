"""What a caller of a device knows and computes: commands that sessions authorize, and the contents
of their responses.

The caller learns nonces only from responses. It knows the authorization values that it set, and
learns the Names of objects from the public areas in responses. It stops if a response's hmac
differs from the hmac that it computes itself.
"""

import contextlib
import secrets
from typing import Any, Callable, Iterator, Sequence

from tpmsim.caller.entries import Means, Prepared, Session, Use
from tpmsim.faults import TpmsimError
from tpmsim.standard import CC, CONTINUE_SESSION, DECRYPT, ENCRYPT, Entry, Fields, frames
from tpmsim.standard import handle_kinds, nv, policy, RH_ENDORSEMENT, RH_LOCKOUT, RH_NULL, RH_OWNER
from tpmsim.standard import RH_PLATFORM, RS_PW, sessions, TRANSIENT, trimmed, values

NONCE_BYTES = 16

# The parameter of TPM2_Startup and TPM2_Shutdown.
CLEAR, STATE = 0, 1

# The attribute that each of these commands sets in the index that it uses.
MARKS = {
    CC.NV_Write: nv.Attribute.WRITTEN,
    CC.NV_Increment: nv.Attribute.WRITTEN,
    CC.NV_SetBits: nv.Attribute.WRITTEN,
    CC.NV_Extend: nv.Attribute.WRITTEN,
    CC.NV_WriteLock: nv.Attribute.WRITELOCKED,
    CC.NV_ReadLock: nv.Attribute.READLOCKED,
}


class WrongResponse(TpmsimError):
    """A response that no device with the keys of the sessions would send; the message says why."""


def expect(holds: bool, words: str) -> None:
    """Raises WrongResponse unless the condition holds."""
    if not holds:
        raise WrongResponse(words)


class Knowledge:
    """What a caller knows, by handle: authorization values, Names, and the public areas of indices.
    `nonce` returns the requested number of bytes, which are random by default.
    """

    def __init__(self, nonce: Callable[[int], bytes] = secrets.token_bytes) -> None:
        self.nonce = nonce
        self.auth_values: dict[int, bytes] = {}
        self.names: dict[int, bytes] = {}
        self.publics: dict[int, nv.Public] = {}

    def auth_value(self, handle: int | None) -> bytes:
        """Returns the known authorization value of a handle; empty if the value is unknown."""
        return b"" if handle is None else self.auth_values.get(handle, b"")

    def name(self, handle: int) -> bytes:
        """Returns the known Name of a handle, or the handle itself if the Name is unknown."""
        return self.names.get(handle) or sessions.name_of(handle)

    def note(self, handle: int, name: bytes, auth_value: bytes) -> None:
        """Learns the Name and the authorization value of an entity."""
        self.names[handle], self.auth_values[handle] = name, auth_value

    def note_public(self, public: nv.Public) -> None:
        """Learns the public area of an index, and with it the Name."""
        self.publics[public.index], self.names[public.index] = public, public.name

    def forget(self, *those: int) -> None:
        """Forgets everything that is known about these handles."""
        for handle in those:
            self.names.pop(handle, None)
            self.auth_values.pop(handle, None)
            self.publics.pop(handle, None)

    @contextlib.contextmanager
    def breaking(self, **rules: Any) -> Iterator[None]:
        """Within a `with` block, prepares commands with these methods instead of the class's own
        methods.
        """
        vars(self).update(rules)
        try:
            yield
        finally:
            for name in rules:
                del vars(self)[name]

    def prepare(
        self, code: CC, handles: Sequence[int], parameters: bytes = b"", *means: Means
    ) -> Prepared:
        """Prepares a command. Each of `means` becomes an entry: a password's bytes, a session, or a
        `Use`.
        """
        uses = [Use(it) if isinstance(it, Session) else it for it in means]
        for use in uses:
            if isinstance(use, Use) and use.nonce is None:
                use.nonce = self.nonce(len(use.session.nonce_tpm))
        prepared = Prepared(code, list(handles), parameters, uses, [])
        for place, use in enumerate(uses, 1):
            if isinstance(use, Use) and use.attributes & DECRYPT:
                handle = prepared.authorized(place)
                prepared.parameters = self.encrypted(use, handle, prepared.parameters)
        prepared.entries = [self.entry(prepared, place) for place in range(1, len(uses) + 1)]
        return prepared

    def key(self, use: Use, handle: int | None) -> bytes:
        """Returns the key of an hmac. In an HMAC session it includes the authorization value,
        unless the session is bound to the entity and the value is unchanged since the session's
        start. In a policy session it includes the value if the policy demands it.
        """
        session = use.session
        if handle is None:
            return session.key
        auth_value = self.auth_value(handle)
        if handle_kinds.is_policy(session.handle):
            is_in_key = use.demand == policy.AUTH_VALUE
        else:
            is_in_key = (session.bind, session.bind_auth) != (self.name(handle), auth_value)
        return session.key + (auth_value if is_in_key else b"")

    def encrypted(self, use: Use, handle: int | None, parameters: bytes) -> bytes:
        """Encrypts the first parameter of a command, for the session with which the device decrypts
        that parameter.
        """
        session, key = use.session, use.session.key + self.auth_value(handle)
        given = session.cipher, session.algorithm, key, use.nonce or b"", session.nonce_tpm
        return sessions.first_encrypted(*given, parameters)

    def decrypted(
        self, use: Use, handle: int | None, parameters: bytes, is_answer: bool = False
    ) -> bytes:
        """Decrypts the parameters of a command or, with `is_answer`, of its response."""
        session, key = use.session, use.session.key + self.auth_value(handle)
        nonces = use.nonce or b"", session.nonce_tpm
        given = session.cipher, session.algorithm, key, *(nonces[::-1] if is_answer else nonces)
        return sessions.first_decrypted(*given, parameters)

    def entry(self, prepared: Prepared, place: int) -> Entry:
        """Returns the entry for one of a command's uses, counted from 1."""
        use = prepared.uses[place - 1]
        if isinstance(use, bytes):
            return Entry(RS_PW, b"", CONTINUE_SESSION, use)
        session, nonce = use.session, use.nonce or b""
        handle = prepared.authorized(place)
        key, hmac = self.key(use, handle), b""
        if use.demand == policy.PASSWORD:
            hmac = self.auth_value(handle)
        elif key or use.shows_empty_key:
            others = self.nonces_of_others(prepared, place, handle)
            cp_hash = self.cp_hash(prepared, session.algorithm)
            given = session.algorithm, key, cp_hash, nonce, session.nonce_tpm, others
            hmac = sessions.entry_hmac(*given, use.attributes)
        return Entry(session.handle, nonce, use.attributes, hmac)

    def cp_hash(self, prepared: Prepared, algorithm: int = frames.SHA256) -> bytes:
        """Returns the cpHash of a command, computed with the known Names of its handles."""
        names = [self.name(it) for it in prepared.handles]
        return sessions.command_hash(algorithm, prepared.code, names, prepared.parameters)

    @staticmethod
    def nonces_of_others(prepared: Prepared, place: int, handle: int | None) -> list[bytes]:
        """Returns the nonces of other sessions that an entry's hmac depends on: those of sessions
        that decrypt, followed by those of sessions that encrypt. There are none unless the entry is
        the first one and authorizes a handle.
        """
        if place != 1 or handle is None:
            return []
        others = [it for it in prepared.uses[1:] if isinstance(it, Use)]
        decrypting = [it for it in others if it.attributes & DECRYPT]
        encrypting = [it for it in others if it.attributes & ENCRYPT and it not in decrypting]
        return [it.session.nonce_tpm for it in decrypting + encrypting]

    def started(
        self,
        answer: tuple[int | None, bytes],
        nonce: bytes,
        bind: int,
        algorithm: int,
        kind: int,
        cipher: int = frames.ALG_NULL,
    ) -> Session:
        """Returns the session that TPM2_StartAuthSession started, from the response's handle and
        parameters.
        """
        handle, parameters = answer
        nonce_tpm, bind_auth = Fields(parameters).sized(), self.auth_value(bind)
        key = b""
        if bind != RH_NULL:
            key = sessions.session_key(algorithm, bind_auth, nonce_tpm, nonce)
        bound = self.name(bind), bind_auth
        return Session(handle or 0, algorithm, nonce_tpm, key, *bound, kind, cipher)

    # Responses to accepted commands.

    def received(self, prepared: Prepared, response: bytes) -> tuple[int | None, bytes]:
        """Checks a response, learns what the command changed, and returns the response's handle and
        its decrypted parameters. Raises WrongResponse if it is not the response to this command.
        """
        fields = Fields(response)
        tag, size, code = fields.number(2), fields.number(4), fields.number(4)
        expect((size, code) == (len(response), 0), "the response is no success of its size")
        wanted = frames.SESSIONS if prepared.entries else frames.NO_SESSIONS
        expect(tag == wanted, f"the tag of the response is {tag:04x}")
        handle = fields.number(4) if prepared.code.answers_handle else None
        request = self.plain_request(prepared)
        self.note_effect(prepared, request)
        if not prepared.entries:
            parameters = fields.data
        else:
            parameters = fields.take(fields.number(4))
            for place in range(1, len(prepared.entries) + 1):
                self.check_answer(prepared, place, parameters, fields)
            expect(not fields.data, "bytes are left after the response")
            parameters = self.plain_answer(prepared, parameters)
        self.note_answer(prepared, request, handle, parameters)
        return handle, parameters

    def plain_request(self, prepared: Prepared) -> bytes:
        """Returns the parameters of a command as they were before encryption."""
        for place, use in enumerate(prepared.uses, 1):
            if isinstance(use, Use) and use.attributes & DECRYPT:
                return self.decrypted(use, prepared.authorized(place), prepared.parameters)
        return prepared.parameters

    def note_effect(self, prepared: Prepared, request: bytes) -> None:
        """Learns the changes that an accepted command makes before the device computes its
        response. The parameters are decrypted.
        """
        code, handles = prepared.code, prepared.handles
        if code in MARKS and handles[1] in self.publics:
            self.note_public(self.publics[handles[1]].but(added=MARKS[code]))
        elif code == CC.NV_UndefineSpace:
            self.forget(handles[1])
        elif code == CC.Clear:
            for hierarchy in (RH_OWNER, RH_ENDORSEMENT, RH_LOCKOUT):
                self.auth_values.pop(hierarchy, None)
        elif code in (CC.HierarchyChangeAuth, CC.NV_ChangeAuth):
            self.auth_values[handles[0]] = trimmed(Fields(request).sized())

    def note_answer(
        self, prepared: Prepared, request: bytes, handle: int | None, parameters: bytes
    ) -> None:
        """Learns the remaining effects of an accepted command from the decrypted parameters of the
        command and of its response.
        """
        code, fields = prepared.code, Fields(request)
        if code == CC.NV_ReadPublic:
            self.note_public(nv.Public.read(Fields(parameters).sized()))
        elif code == CC.Startup and fields.number(2) == CLEAR:
            self.auth_values.pop(RH_PLATFORM, None)
        elif code == CC.FlushContext:
            flushed = fields.number(4)
            if handle_kinds.first_byte(flushed) == TRANSIENT:
                self.forget(flushed)
        elif code == CC.EvictControl:
            evicted, wanted = prepared.handles[1], fields.number(4)
            if evicted == wanted:
                self.forget(evicted)
            else:
                self.note(wanted, self.name(evicted), self.auth_value(evicted))
        elif code == CC.NV_DefineSpace:
            auth_value, public = fields.sized(), nv.Public.read(fields.sized())
            self.note_public(public)
            self.auth_values[public.index] = trimmed(auth_value)
        elif handle is not None and code in (CC.CreatePrimary, CC.Load):
            name = values.read_all(code.answered_parameters, parameters)["name"]
            # The authorization value of a loaded object is in its private area. Only the caller
            # that created the object knows it.
            user_auth = Fields(fields.sized()).sized() if code == CC.CreatePrimary else b""
            self.note(handle, name, trimmed(user_auth))

    def check_answer(
        self, prepared: Prepared, place: int, parameters: bytes, fields: Fields
    ) -> None:
        """Reads and checks the part of a response that belongs to one entry."""
        use, entry = prepared.uses[place - 1], prepared.entries[place - 1]
        nonce_tpm, attributes, hmac = fields.sized(), fields.number(1), fields.sized()
        if isinstance(use, bytes):
            wanted = b"", CONTINUE_SESSION, b""
            expect((nonce_tpm, attributes, hmac) == wanted, "a password is answered otherwise")
            return
        session = use.session
        is_like = attributes == entry.attributes and len(nonce_tpm) == len(session.nonce_tpm)
        expect(is_like, f"the answer to entry {place} has other attributes, or no nonce")
        session.nonce_tpm = nonce_tpm
        if not entry.hmac or use.demand == policy.PASSWORD:
            expect(not hmac, f"entry {place} is answered by an hmac")
            return
        key, code = self.key(use, prepared.authorized(place)), prepared.code
        answered = sessions.response_hash(session.algorithm, code, parameters)
        nonces = nonce_tpm, entry.nonce
        wanted_hmac = sessions.entry_hmac(session.algorithm, key, answered, *nonces, [], attributes)
        expect(hmac == wanted_hmac, f"entry {place} is answered by a wrong hmac")

    def plain_answer(self, prepared: Prepared, parameters: bytes) -> bytes:
        """Returns the parameters of a response, decrypted."""
        for place, use in enumerate(prepared.uses, 1):
            if isinstance(use, Use) and use.attributes & ENCRYPT:
                return self.decrypted(use, prepared.authorized(place), parameters, True)
        return parameters
