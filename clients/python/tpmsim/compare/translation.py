"""Rebuilds a command of the script for another TPM, with the handles, nonces and keys of that
TPM.
"""

from tpmsim.caller.entries import flipped, Prepared, Session, Use
from tpmsim.caller.knowledge import Knowledge, WrongResponse
from tpmsim.compare.contexts import Contexts
from tpmsim.compare.reference import parsed, Received, Reference
from tpmsim.faults import TpmsimError
from tpmsim.model.general import Command
from tpmsim.standard import ALG_NULL, CC, CONTINUE_SESSION, DECRYPT, Entry, Fields, first_byte
from tpmsim.standard import frames, is_policy, is_session, Kind, nv, RS_PW, sessions, Short
from tpmsim.standard.values import read_all, VALUES

# Only values of at least this size are replaced. A shorter value could occur in a command by
# chance.
LEAST_VALUE = 8

TIED = "a Name of an object is in its policy"


class NotComparable(TpmsimError):
    """Why a command cannot be rebuilt, as text, and the line of the script that is the reason."""

    def __init__(self, words: str, line: int) -> None:
        super().__init__(words, line)
        self.words, self.line = words, line


class Translation:
    """The entities and values of the other TPM that correspond to those in the script."""

    def __init__(self, here: Reference) -> None:
        self.here, self.known = here, Knowledge()
        self.handles: dict[int, int] = {}
        self.lost: dict[int, int] = {}
        self.sessions: dict[int, Session] = {}
        self.values: dict[bytes, bytes] = {}
        self.tied: dict[int, int] = {}
        self.hashed: dict[int, int] = {}
        self.contexts = Contexts(self)

    def power_cycle(self) -> None:
        for handle in [it for it in self.handles if is_session(it) or first_byte(it) == 0x80]:
            del self.handles[handle]
        self.sessions, self.tied, self.hashed = {}, {}, {}
        self.contexts.power_cycle()
        self.lost = {it: line for it, line in self.lost.items() if first_byte(it) in (1, 0x81)}

    def handle(self, number: int) -> int:
        if number in self.lost:
            raise NotComparable(f"{number:08x} is not there", self.lost[number])
        return self.handles.get(number, number)

    def command(self, buffer: bytes) -> Prepared | bytes:
        """Returns the command for the other TPM; bytes that are not a command are returned
        unchanged.
        """
        asked = parsed(buffer)
        if asked is None:
            return self.contexts.command(buffer)
        handles = [self.handle(it) for it in asked.handles]
        if asked.code == CC.PolicyGetDigest and asked.handles[0] in self.tied:
            raise NotComparable(TIED, self.tied[asked.handles[0]])
        parameters = self.parameters(asked, self.here.plain(asked))
        self.check_hashed(asked, handles, parameters)
        uses = [self.use(asked, *it) for it in asked.places]
        prepared = Prepared(asked.code, handles, parameters, uses, [])
        for place, use in enumerate(uses, 1):
            if isinstance(use, Use) and use.attributes & DECRYPT and use.session.cipher != ALG_NULL:
                size = int.from_bytes(parameters[:2], "big")
                if asked.code.takes_sized and len(parameters) - 2 >= size > 0:
                    handle = prepared.authorized(place)
                    prepared.parameters = self.known.encrypted(use, handle, parameters)
        prepared.entries = [self.entry(asked, prepared, *it) for it in asked.places]
        return prepared

    def check_hashed(self, asked: Command, handles: list[int], parameters: bytes) -> None:
        """Raises NotComparable if a policy contains this command's cpHash, but its Names or
        parameters differ on the other TPM.
        """
        names = [self.known.name(it) for it in handles]
        if (names, parameters) == (self.here.model.names(asked), asked.parameters):
            return
        for _, entry, handle in asked.places:
            if entry.handle in self.hashed and handle is not None:
                raise NotComparable(TIED, self.hashed[entry.handle])

    def is_made_elsewhere(self, asked: Command) -> bool:
        """Whether a command loads an area that no response contained. The device on which the
        script was recorded made that area with its own seeds.
        """
        if asked.code != CC.Load:
            return False
        try:
            return Fields(self.here.plain(asked)).sized() not in self.values
        except Short:
            return False

    def use(self, asked: Command, place: int, entry: Entry, handle: int | None) -> bytes | Use:
        if not is_session(entry.handle):
            return entry.hmac
        session = self.sessions.get(self.handle(entry.handle))
        if session is None or entry.handle not in self.here.model.sessions:
            return entry.hmac
        if entry.handle in self.tied and handle is not None:
            raise NotComparable(TIED, self.tied[entry.handle])
        demand = None
        if handle is not None:
            demand = self.here.model.sessions[entry.handle].policy.demand
        return Use(session, entry.attributes, entry.nonce, demand=demand)

    def entry(
        self, asked: Command, prepared: Prepared, place: int, entry: Entry, handle: int | None
    ) -> Entry:
        use, there = prepared.uses[place - 1], prepared.authorized(place)
        if isinstance(use, bytes):
            number = self.handle(entry.handle) if is_session(entry.handle) else entry.handle
            hmac = self.password(entry.hmac, handle, there) if number == RS_PW else entry.hmac
            return Entry(number, entry.nonce, entry.attributes, hmac)
        session, hmac = use.session, entry.hmac
        shown = self.here.shown(asked, place, entry, handle)
        if shown.is_password:
            hmac = self.password(entry.hmac, handle, there)
        elif len(hmac) == sessions.digest_bytes(session.algorithm):
            has_value = shown.key
            if has_value is None:
                uses = self.here.model.uses_auth_value
                has_value = handle is not None and uses(entry, handle)
            hmac = self.hmac(prepared, place, use, has_value)
            hmac = hmac if shown.key is not None else flipped(hmac)
        return Entry(session.handle, entry.nonce, entry.attributes, hmac)

    def hmac(self, prepared: Prepared, place: int, use: Use, has_value: bool) -> bytes:
        session, handle = use.session, prepared.authorized(place)
        key = session.key + (self.known.auth_value(handle) if has_value else b"")
        others = self.known.nonces_of_others(prepared, place, handle)
        cp_hash, nonce = self.known.cp_hash(prepared, session.algorithm), use.nonce or b""
        given = session.algorithm, key, cp_hash, nonce, session.nonce_tpm, others
        return sessions.entry_hmac(*given, use.attributes)

    def password(self, given: bytes, handle: int | None, there: int | None) -> bytes:
        """Returns the password for the other TPM: the other TPM's own authorization value if the
        password is correct on this device, otherwise the password unchanged.
        """
        value, other = self.here.model.auth_value(handle), self.known.auth_value(there)
        return other if sessions.trimmed(given) == value != other else given

    def parameters(self, asked: Command, plain: bytes) -> bytes:
        """Returns the parameters with the other TPM's handles, nonces and earlier results."""
        fields, text = Fields(plain), b""
        for it in asked.code.parameters:
            before = fields.data
            try:
                value = VALUES[it.kind].read(fields)
            except (Short, KeyError):
                return text + before
            taken = before[: len(before) - len(fields.data)]
            if it.kind == Kind.BUFFER:
                taken = frames.sized(self.buffer(asked, it.name, value))
            elif it.kind == Kind.HANDLE:
                taken = frames.number(self.handle(value), 4)
            text += taken
        return text + fields.data

    def buffer(self, asked: Command, name: str, value: bytes) -> bytes:
        session = asked.handles[-1] if asked.handles else 0
        if name == "nonceTPM" and session in self.here.model.sessions:
            if value == self.here.model.sessions[session].nonce_tpm:
                other = self.sessions.get(self.handle(session))
                return other.nonce_tpm if other else value
        return self.values.get(value, value)

    def received(self, prepared: Prepared, response: bytes) -> Received:
        """Reads a successful response of the other TPM, and stores the new nonces of the sessions."""
        fields = Fields(response[10:])
        handle = fields.number(4) if prepared.code.answers_handle else None
        request = self.known.plain_request(prepared)
        self.known.note_effect(prepared, request)
        answer, wrong = Received(request, handle), list[str]()
        parameters = fields.take(fields.number(4)) if prepared.entries else fields.data
        for place in range(1, len(prepared.entries) + 1):
            try:
                self.known.check_answer(prepared, place, parameters, fields)
            except WrongResponse as words:
                wrong.append(str(words))
        parameters = self.known.plain_answer(prepared, parameters)
        try:
            self.known.note_answer(prepared, request, handle, parameters)
        except KeyError:
            pass  # only the other TPM supports the Name's hash algorithm
        answer.fields = read_all(prepared.code.answered_parameters, parameters)
        answer.wrong = "; ".join(wrong) or None
        return answer

    def note_both(
        self, asked: Command, prepared: Prepared, here: Received, there: Received, line: int
    ) -> None:
        for name, value in here.fields.items():
            other = there.fields.get(name)
            if isinstance(value, bytes) and isinstance(other, bytes) and len(value) >= LEAST_VALUE:
                self.values[value] = other
        if here.handle is not None and there.handle is not None:
            self.handles[here.handle] = there.handle
            self.lost.pop(here.handle, None)
            if asked.code == CC.Load:
                value = self.here.model.auth_value(here.handle)
                self.known.auth_values[there.handle] = value
        fields = Fields(there.request)
        if asked.code == CC.StartAuthSession:
            self.start(prepared, there)
        elif asked.code == CC.EvictControl:
            self.lost.pop(fields.number(4), None)
        elif asked.code == CC.NV_DefineSpace and fields.sized() is not None:
            self.lost.pop(nv.Public.read(fields.sized()).index, None)
        elif asked.handles and is_policy(asked.handles[-1]):
            self.tie(asked, prepared, there, line)
        self.end_sessions(asked)

    def start(self, prepared: Prepared, there: Received) -> None:
        asked = read_all(CC.StartAuthSession.parameters, there.request)
        answer = there.handle, frames.sized(there.fields["nonceTPM"])
        session = self.known.started(
            *(answer, asked["nonceCaller"], prepared.handles[1], asked["authHash"]),
            *(asked["sessionType"], asked["symmetric"].algorithm),
        )
        self.sessions[session.handle] = session

    def tie(self, asked: Command, prepared: Prepared, there: Received, line: int) -> None:
        """Notes a policy with a cpHash, or with a Name that differs on the other TPM."""
        session = asked.handles[-1]
        if asked.code == CC.PolicyRestart:
            self.untie(session)
        names = [self.here.model.name(it) for it in asked.handles[:-1]]
        if names != [self.known.name(it) for it in prepared.handles[:-1]]:
            self.tied[session] = line
        elif read_all(asked.code.parameters, there.request).get("cpHashA"):
            self.hashed[session] = line

    def untie(self, session: int) -> None:
        self.tied.pop(session, None)
        self.hashed.pop(session, None)

    def undefining(self, there: Received) -> bytes:
        """Returns the command that removes what TPM2_NV_DefineSpace defined on the other TPM."""
        fields = Fields(there.request)
        fields.sized()
        index = int.from_bytes(fields.sized()[:4], "big")
        self.known.forget(index)
        return frames.on_handles(CC.NV_UndefineSpace, [frames.RH_OWNER, index])

    def end_sessions(self, asked: Command) -> None:
        for _, entry, handle in asked.places:
            if not is_session(entry.handle):
                continue
            if not entry.attributes & CONTINUE_SESSION:
                self.sessions.pop(self.handles.pop(entry.handle, 0), None)
            elif handle is not None:
                self.untie(entry.handle)
