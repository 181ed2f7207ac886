"""A caller whose commands become a script. Each command has a description and an expected outcome.
The caller checks each response, and stops if it differs from the response that the caller has
computed.
"""

import hashlib
from typing import Any, Iterator, Sequence

from tpmsim.caller import CLEAR, Made, Means, NONCE_BYTES, Prepared, Response, Session, Use
from tpmsim.caller.prepared_commands import PreparedCommands
from tpmsim.standard import AES, ALG_NULL, CC, digest, digest_bytes, Fields, frames, nv, RH_NULL
from tpmsim.standard import RH_OWNER, SE_HMAC, SE_POLICY, SE_TRIAL, SHA1, SHA256, sized, trimmed
from tpmsim.standard import XOR
from tpmsim.standard.objects import Public
from tests.common.script import Script, SUCCESS

HASHES = ((SHA1, "SHA-1"), (SHA256, "SHA-256"))
KINDS = ((SE_POLICY, "policy"), (SE_TRIAL, "trial"))

# The first four NV indices of most scripts.
FIRST, SECOND, THIRD, FOURTH = range(0x0100_0001, 0x0100_0005)


def zeros(session: Session) -> bytes:
    """Returns the policy digest of a session without assertions."""
    return bytes(digest_bytes(session.algorithm))


def is_trial(session: Session) -> bool:
    return session.kind == SE_TRIAL


class ScriptCaller(PreparedCommands):
    """A caller whose methods take a description of a command as their first argument. If the
    command may be refused, the description names the outcome, such as "By another password:
    BAD_AUTH/s1".
    """

    def __init__(self, script: Script) -> None:
        super().__init__(self.next_nonce)
        self.script, self.nonces = script, 0
        self.ticket, self.creation_data = (0, b""), b""

    def next_nonce(self, size: int = NONCE_BYTES) -> bytes:
        """Returns the next nonce. All scripts use the same sequence of nonces."""
        self.nonces += 1
        return hashlib.sha256(b"nonce %d" % self.nonces).digest()[:size]

    # Methods that send commands.

    def refused(self, words: str, *prepared: Prepared) -> None:
        """Sends commands that must be refused. The caller's sessions do not change."""
        self.script.command(words, *(it.buffer() for it in prepared), fresh=True)

    def says(self, words: str, *prepared: Prepared) -> bytes:
        """Sends commands that have no session entry and draw no random bytes."""
        return self.script.command(words, *(it.buffer() for it in prepared))

    @staticmethod
    def draws(prepared: Prepared) -> bool:
        return any(isinstance(it, Use) for it in prepared.uses)

    def fails(self, words: str, *prepared: Prepared) -> None:
        """Sends commands. If a command has an entry for a session, the script first sets new random
        bytes.
        """
        buffers = [it.buffer() for it in prepared]
        self.script.command(words, *buffers, fresh=any(map(self.draws, prepared)))

    def accepted(
        self, what: str, prepared: Prepared, fresh: bool = True
    ) -> tuple[int | None, bytes]:
        """Sends a command that must be accepted, and checks its response. Returns the handle and
        the decrypted parameters. If the description is empty, the last comment is continued. The
        part of `what` after a `|` is written after the outcome.
        """
        before, bar, after = what.partition("|")
        words = f"{before}: {SUCCESS}{bar and ', '}{after}"
        return self.received(prepared, self.script.command(words, prepared.buffer(), fresh=fresh))

    def does(self, what: str, prepared: Prepared) -> bytes:
        """Sends a command that must be accepted. If it has an entry for a session, the script first
        sets new random bytes. Returns the response's parameters.
        """
        return self.accepted(what, prepared, self.draws(prepared))[1]

    def response(self, what: str, prepared: Prepared) -> Response:
        """Sends a command that must be accepted, and returns its response as fields."""
        return Response(prepared.code, *self.accepted(what, prepared))

    # Commands for sessions.

    def start(
        self,
        what: str,
        bind: int = RH_NULL,
        algorithm: int = SHA256,
        aes: bool = False,
        size: int = NONCE_BYTES,
        uses: Sequence[Means] = (),
        kind: int = SE_HMAC,
        xor: bool = False,
    ) -> Session:
        """Starts a session, and returns the caller's description of it."""
        nonce, cipher = self.nonce(size), XOR if xor else AES if aes else ALG_NULL
        handles, parameters = frames.start_auth_session(
            *(nonce, bind, algorithm, aes), kind=kind, xor=algorithm if xor else None
        )
        start = self.prepare(CC.StartAuthSession, handles, parameters, *uses)
        return self.started(self.accepted(what, start), nonce, bind, algorithm, kind, cipher)

    def policy(self, what: str, **choices: Any) -> Session:
        return self.start(what, kind=SE_POLICY, **choices)

    def trial(self, what: str, **choices: Any) -> Session:
        return self.start(what, kind=SE_TRIAL, **choices)

    def each_session(self, **choices: Any) -> Iterator[Session]:
        """Yields a policy session and a trial session for each hash algorithm, each in its own
        chapter.
        """
        for algorithm, hash_name in HASHES:
            for kind, name in KINDS:
                self.script.chapter(f"A {name} session of {hash_name}.")
                session = self.start(
                    "The session is started", algorithm=algorithm, kind=kind, **choices
                )
                yield session
                self.says("The session is flushed: SUCCESS", self.flush(session))

    def digest_is(self, what: str, session: Session, wanted: bytes) -> None:
        response = self.says(f"{what}: SUCCESS", self.get_digest(session))
        assert response == frames.success(sized(wanted))

    # Commands for objects.

    def creation_answer(self, response: Response) -> Public:
        """Returns the public area in a response. Checks the creation hash in the response against
        its creation data.
        """
        public, ticket = Public.read(response["outPublic"]), response["creationTicket"]
        self.creation_data = response["creationData"]
        assert response["creationHash"] == digest(public.name_algorithm, self.creation_data)
        assert ticket.tag == frames.ST_CREATION
        self.ticket = ticket.hierarchy, ticket.digest
        return public

    def create_primary(
        self, what: str, hierarchy: int, public: Public, *uses: Means, **more: Any
    ) -> int:
        """Creates a primary object, and returns its handle."""
        response = self.response(what, self.primary(hierarchy, public, *uses, **more))
        assert response["name"] == self.creation_answer(response).name
        assert response.handle
        return response.handle

    def create(
        self,
        what: str,
        parent: int,
        public: Public,
        *uses: Means,
        user_auth: bytes = b"",
        **more: Any,
    ) -> Made:
        prepared = self.child(parent, public, *uses, user_auth=user_auth, **more)
        response = self.response(what, prepared)
        return Made(response["outPrivate"], self.creation_answer(response), trimmed(user_auth))

    def load(self, what: str, parent: int, made: Made, *uses: Means) -> int:
        """Loads an object, and returns its handle."""
        response = self.response(what, self.loading(parent, made, *uses))
        assert response.handle and response["name"] == made.public.name
        self.auth_values[response.handle] = made.auth_value
        return response.handle

    def read_public(self, what: str, handle: int, *uses: Means) -> tuple[Public, bytes]:
        """Reads the public area of an object, and checks its Name. Returns the area and the
        qualified name.
        """
        response = self.response(what, self.public(handle, *uses))
        public = Public.read(response["outPublic"])
        assert response["name"] == public.name == self.names[handle]
        return public, response["qualifiedName"]

    def unseal(self, what: str, handle: int, data: bytes, *uses: Means) -> None:
        _, parameters = self.accepted(what, self.unsealing(handle, *uses))
        assert parameters == sized(data)

    def flush_objects(self, what: str, *handles: int) -> None:
        for handle in handles:
            self.accepted(what if handle == handles[0] else "", self.flush(handle))

    def keep(self, what: str, asker: int, handle: int, wanted: int, *uses: Means) -> int:
        """Makes a transient object persistent, and returns the persistent handle."""
        self.does(what, self.evicting(asker, handle, wanted, *uses))
        return wanted

    def remove(self, what: str, asker: int, handle: int, *uses: Means) -> None:
        self.does(what, self.evicting(asker, handle, handle, *uses))

    # Commands for NV indices.

    def define(
        self, what: str, public: nv.Public, *uses: Means, auth: bytes = b"", by: int = RH_OWNER
    ) -> int:
        """Defines an index, and returns its handle."""
        self.does(what, self.defining(public, *uses, auth=auth, by=by))
        return public.index

    def read(
        self,
        what: str,
        index: int,
        data: bytes,
        *uses: Means,
        offset: int = 0,
        by: int | None = None,
    ) -> None:
        """Reads bytes of an index, and checks that they are `data`."""
        prepared = self.reading(index, len(data), *uses, offset=offset, by=by)
        assert self.does(what, prepared) == sized(data), what

    def read_index_public(self, what: str, index: int, *uses: Means) -> nv.Public:
        """Reads an index's public area, and stores it in the caller, because TPM2_Startup may have
        changed the area.
        """
        fields = Fields(self.does(what, self.index_public(index, *uses)))
        fields.sized()
        public = self.publics[index]
        assert fields.sized() == public.name and not fields.data
        return public

    def is_now(self, what: str, index: int, *uses: Means, added: int = 0, cleared: int = 0) -> None:
        """Reads an index's public area. The only changes since it was last read must be the
        attributes `added` and `cleared`.
        """
        wanted = self.publics[index].but(added, cleared)
        public = self.read_index_public(what, index, *uses)
        assert public == wanted, f"{what}: {public.attributes:08x}"

    # Commands that change the state that the device keeps while it has no power.

    def start_up(self, what: str, kind: int = CLEAR) -> None:
        """Sends TPM2_Startup. With CLEAR, the platform's authorization value becomes empty."""
        self.does(what, self.starting(kind))

    def set_protection(
        self, what: str, max_tries: int, recovery_time: int, lockout_recovery: int
    ) -> None:
        self.does(what, self.attack_parameters(max_tries, recovery_time, lockout_recovery))
