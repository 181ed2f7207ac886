"""HMAC sessions for random commands. What is known about the device comes from its responses."""

from dataclasses import dataclass

from tpmsim.model.sequence_commands import AUTHORIZED, EVENT_SEQUENCE_COMPLETE
from tpmsim.model.sequence_commands import HASH_SEQUENCE_START, HMAC_START, SEQUENCE_UPDATE
from tpmsim.standard import CC, digest_bytes, Fields, frames, number, RH_NULL, RH_OWNER, sessions
from tpmsim.standard import SHA1, SHA256, Short, trimmed
from tpmsim.standard.objects import Public

CONTEXT_SAVE, CONTEXT_LOAD = 0x162, 0x161
STARTS = HASH_SEQUENCE_START, HMAC_START


@dataclass
class Begun:
    """An HMAC session. `bind` is the Name and the authorization value of its bind entity."""

    algorithm: int
    key: bytes
    nonce: bytes
    bind: tuple[bytes, bytes] | None = None


class Known:
    """The sessions, and the Name and the authorization value of each handle. A sequence has an
    empty Name.
    """

    def __init__(self):
        self.sessions = dict[int, Begun]()
        self.entities = dict[int, tuple[bytes, bytes]]()
        self.contexts = dict[bytes, tuple[bytes, bytes]]()

    @property
    def sequences(self):
        return [handle for handle, (name, _) in self.entities.items() if not name]

    @property
    def objects(self):
        return [handle for handle, (name, _) in self.entities.items() if name]

    def of(self, handle):
        return self.entities.get(handle, (number(handle, 4), b""))

    def heard(self, buffer, response):
        """Notes a command with its response."""
        code = int.from_bytes(buffer[6:10], "big")
        if any(response[6:10]):
            return
        try:
            self.note(code, Fields(buffer[10:]), Fields(response[10:]))
        except Short:
            pass  # a changed command, which the device accepted nevertheless

    def note(self, code, asked, answered):
        if code == CC.Startup:
            self.sessions.clear()
            self.entities.clear()
        elif code == CC.StartAuthSession:
            self.start(asked, answered)
        elif code == CC.CreatePrimary:
            asked.take(4)
            asked.take(asked.number(4))
            value, handle = Fields(asked.sized()).sized(), answered.number(4)
            answered.take(4)
            self.entities[handle] = Public.read(answered.sized()).name, trimmed(value)
        elif code == CONTEXT_SAVE:
            self.contexts[answered.data] = self.of(asked.number(4))
        elif code == CONTEXT_LOAD:
            self.entities[answered.number(4)] = self.contexts.get(asked.data, (b"", b""))
        elif code in STARTS:
            if code == HMAC_START:
                asked.take(4)
                self.roll(Fields(asked.take(asked.number(4))), Fields(answered.data[4:]))
            self.entities[answered.number(4)] = b"", trimmed(asked.sized())
        elif code in AUTHORIZED:
            handles = [asked.number(4) for _ in range(HANDLES[code])]
            if code != SEQUENCE_UPDATE:
                self.entities.pop(handles[-1], None)
            self.roll(Fields(asked.take(asked.number(4))), answered)
        elif code == CC.FlushContext:
            handle = asked.number(4)
            self.entities.pop(handle, None)
            self.sessions.pop(handle, None)

    def start(self, asked, answered):
        bind, newer = int.from_bytes(asked.take(8)[4:], "big"), asked.sized()
        asked.take(2)
        kind, algorithm = asked.number(1), int.from_bytes(asked.data[-2:], "big")
        handle, nonce = answered.number(4), answered.sized()
        bound = None if bind == RH_NULL else self.of(bind)
        key = sessions.session_key(algorithm, bound[1], nonce, newer) if bound else b""
        if kind == frames.SE_HMAC:
            self.sessions[handle] = Begun(algorithm, key, nonce, bound)

    def roll(self, asked, answered):
        """Notes the new nonce of the session in the first entry, or the end of the session."""
        handle = asked.number(4)
        asked.sized()
        answered.take(answered.number(4))
        if handle in self.sessions:
            self.sessions[handle].nonce = answered.sized()
            if not asked.number(1) & frames.CONTINUE_SESSION:
                del self.sessions[handle]


# The number of handles of each command that a session may authorize.
HANDLES = {code: 1 for code in AUTHORIZED} | {EVENT_SEQUENCE_COMPLETE: 2}


def started(chance, known):
    """Returns TPM2_StartAuthSession, for a session of any kind, which may be bound."""
    kind = chance.choice((frames.SE_HMAC,) * 3 + (frames.SE_POLICY, frames.SE_TRIAL))
    algorithm, bind = chance.choice((SHA256, SHA256, SHA1)), RH_NULL
    if chance.random() < 0.4:
        bind = chance.choice([RH_OWNER, *known.entities])
    size = chance.choice((16, digest_bytes(algorithm)))
    nonce = chance.randbytes(size)
    handles, parameters = frames.start_auth_session(nonce, bind, algorithm, kind=kind)
    return frames.buffer_of(CC.StartAuthSession, handles, [], parameters)


def entry(chance, known, code, handles, parameters):
    """Returns an entry with an HMAC session. Its HMAC is correct, as far as is known, except for
    one entry in ten.
    """
    handle = chance.choice(list(known.sessions))
    it, nonce = known.sessions[handle], chance.randbytes(chance.choice((0, 16, 20)))
    names = [known.of(one)[0] for one in handles]
    value = known.of(handles[0])[1]
    key = it.key if it.bind == known.of(handles[0]) else it.key + value
    attributes = chance.choice((0, 1, 1, 1, 1, 1, 1, 1))
    text = sessions.command_hash(it.algorithm, code, names, parameters)
    hmac = sessions.entry_hmac(it.algorithm, key, text, nonce, it.nonce, [], attributes)
    if chance.random() < (0.1 if key else 0.5):
        hmac = chance.choice((b"", hmac[:-1], bytes(32), b"\0")) if key else b""
    return frames.entry(handle, nonce, attributes, hmac)
