"""Assembles commands in words, and computes the HMACs of their entries."""

from typing import Sequence

from tpmsim.caller import Knowledge, Prepared, Response, Session, Use
from tpmsim.script.names import Bad, Token
from tpmsim.standard import ALG_NULL, CC, CONTINUE_SESSION, DECRYPT, ENCRYPT, Fields, first_byte
from tpmsim.standard import frames, HEADER_BYTES, is_policy, lines, NAMED, NUMBERED, policy, RS_PW
from tpmsim.standard import SESSIONS, TRANSIENT, trimmed
from tpmsim.standard.values import read_all

# What may follow the session in an entry: the authorization value of its entity, and words for its
# attributes.
PIN, DECRYPTS, ENCRYPTS, ENDS = "pin=", "decrypt", "encrypt", "end"
WORDS = DECRYPTS, ENCRYPTS, ENDS

# The number of parts of an entry that includes its HMAC: `s`, a session, a nonce, attributes and
# the HMAC.
GIVEN_PARTS = 5

# What a policy demands in the entry of its session, after the session has executed one of these
# commands.
DEMANDS = {CC.PolicyAuthValue: policy.AUTH_VALUE, CC.PolicyPassword: policy.PASSWORD}


def in_bytes(text: str) -> bytes:
    """Returns the bytes from which a text was read."""
    return text.encode("utf-8", "surrogateescape")


def value_of(word: Token) -> bytes:
    """Returns an authorization value, written in hex or as `-`, without trailing zeros."""
    try:
        return trimmed(lines.buffer_of(in_bytes(word.text)))
    except lines.Wrong:
        raise Bad(word.column, f"{word.text} is no value in hex, and not -") from None


def is_computed(token: Token) -> bool:
    """Whether a word is an entry without its HMAC, such as `s:$session` or
    `s:$session:pin=7391:encrypt`.
    """
    first, *parts = token.text.split(":")
    says_how = any(it in WORDS or it.startswith(PIN) for it in parts[1:])
    return first == "s" and (says_how or len(parts) + 1 < GIVEN_PARTS)


def spelled(tokens: Sequence[Token]) -> Prepared:
    """Returns the command that words encode; a computed entry has no HMAC yet. Raises Bad if they
    encode no command.
    """
    given = [f"s:{it.text.split(':')[1]}:-:01:-" if is_computed(it) else it.text for it in tokens]
    try:
        fields = Fields(lines.assemble(in_bytes(" ".join(given))))
    except lines.Fault as fault:
        raise bad_line(fault, given, tokens) from None
    tag = fields.number(2)
    fields.take(4)
    code = NUMBERED[fields.number(4)]
    handles = [fields.number(4) for _ in code.handles]
    area = fields.take(fields.number(4)) if tag == SESSIONS else b""
    entries = list(frames.entries_of(area))
    return Prepared(code, handles, fields.data, [it.hmac for it in entries], entries)


def bad_line(fault: lines.Fault, given: Sequence[str], tokens: Sequence[Token]) -> Bad:
    """Returns the error for a fault of docs/SCRIPTS.md, with the expected form of the line. The
    column of the fault refers to `given`.
    """
    name, *columns = str(fault).split()
    form = tokens[0].text
    words = f"{name}: {lines.form_of(CC[form])}" if form in NAMED else name
    if name == lines.MISSING:
        return Bad(tokens[-1].column + len(tokens[-1].text), words)
    at = int(columns[0]) if columns else 1
    for text, token in zip(given, tokens):
        if at <= len(text) + 1:
            return Bad(token.column, words)
        at -= len(text) + 1
    return Bad(tokens[-1].column, words)


class Assembler:
    """Computes entries from what it has learned from the device's responses."""

    def __init__(self, knowledge: Knowledge) -> None:
        self.knowledge = knowledge
        self.sessions: dict[int, Session] = {}
        self.demands: dict[int, str] = {}
        self.values_before: dict[int, bytes] = {}

    def prepared(self, tokens: Sequence[Token]) -> Prepared:
        """Prepares a command with all its entries."""
        self.values_before = dict(self.knowledge.auth_values)
        asked = spelled(tokens)
        start = 1 + len(asked.handles)
        entries = tokens[start : start + len(asked.entries)]
        if not any(map(is_computed, entries)):
            return asked
        means = [self.means(asked, at, it) for at, it in enumerate(entries, 1)]
        return self.knowledge.prepare(asked.code, asked.handles, asked.parameters, *means)

    def means(self, asked: Prepared, place: int, token: Token) -> bytes | Use:
        """Returns the means of authorization in one entry: a password, or the use of a session."""
        entry = asked.entries[place - 1]
        if entry.handle == RS_PW:
            return entry.hmac
        if not is_computed(token):
            raise Bad(token.column, "a line has entries with their HMAC, or computed ones")
        session = self.sessions.get(entry.handle)
        if session is None:
            raise Bad(token.column, f"no session {entry.handle:08x} was started here")
        attributes = CONTINUE_SESSION
        for word in token.text.split(":")[2:]:
            if word.startswith(PIN):
                self.tell_value(asked, place, token, word.removeprefix(PIN))
            else:
                attributes = self.with_word(attributes, word, asked.code, session, token)
        return Use(session, attributes, demand=self.demands.get(session.handle))

    def tell_value(self, asked: Prepared, place: int, token: Token, word: str) -> None:
        """Sets the authorization value of the handle that an entry authorizes."""
        handle = asked.authorized(place)
        if handle is None:
            raise Bad(token.column, f"entry {place} authorizes nothing, and takes no pin")
        self.knowledge.auth_values[handle] = value_of(Token(word, token.column))

    @staticmethod
    def with_word(attributes: int, word: str, code: CC, session: Session, token: Token) -> int:
        """Returns an entry's attributes after one word, such as `decrypt`, has changed them."""
        takes = {DECRYPTS: code.takes_sized, ENCRYPTS: code.answers_sized, ENDS: True}
        if word not in takes:
            raise Bad(token.column, f"an entry has pin=, {', '.join(WORDS)}, and not {word}")
        if word == ENDS:
            return attributes & ~CONTINUE_SESSION
        if session.cipher == ALG_NULL:
            raise Bad(token.column, f"session {session.handle:08x} has no cipher")
        if not takes[word]:
            side = "takes" if word == DECRYPTS else "answers"
            raise Bad(token.column, f"{code.name} {side} no buffer first, for {word}")
        return attributes | (DECRYPT if word == DECRYPTS else ENCRYPT)

    def learn(self, prepared: Prepared, response: bytes) -> Response:
        """Decrypts a successful response, learns from it, and returns it; raises WrongResponse if
        the device did not send it.
        """
        request = self.knowledge.plain_request(prepared)
        pairs = zip(prepared.uses, prepared.entries)
        if any(isinstance(use, bytes) and it.handle != RS_PW for use, it in pairs):
            found = self.learn_unchecked(prepared, response)
        else:
            found = self.knowledge.received(prepared, response)
        answer = Response(prepared.code, *found)
        self.learn_sessions(prepared, request, answer)
        return answer

    def learn_unchecked(self, prepared: Prepared, response: bytes) -> tuple[int | None, bytes]:
        """Returns a successful response and learns from it, but does not check it, because the
        script itself contains an entry's HMAC. Parameters that the session of such an entry
        encrypts stay encrypted.
        """
        fields = Fields(response[HEADER_BYTES:])
        handle = fields.number(4) if prepared.code.answers_handle else None
        parameters = fields.take(fields.number(4))
        for entry in prepared.entries:
            nonce, _, _ = fields.sized(), fields.number(1), fields.sized()
            if entry.handle in self.sessions:
                self.sessions[entry.handle].nonce_tpm = nonce
        if not any(it.attributes & (DECRYPT | ENCRYPT) for it in prepared.entries):
            self.knowledge.note_effect(prepared, prepared.parameters)
            self.knowledge.note_answer(prepared, prepared.parameters, handle, parameters)
        return handle, parameters

    def learn_sessions(self, prepared: Prepared, request: bytes, answer: Response) -> None:
        """Learns which sessions started or ended, and what their policies demand."""
        code = prepared.code
        for entry in prepared.entries:
            if is_policy(entry.handle):
                self.demands.pop(entry.handle, None)
            if not entry.attributes & CONTINUE_SESSION:
                self.sessions.pop(entry.handle, None)
        if code == CC.StartAuthSession:
            self.start(prepared, request, answer)
        elif code in DEMANDS:
            self.demands[prepared.handles[0]] = DEMANDS[code]
        elif code == CC.PolicyRestart:
            self.demands.pop(prepared.handles[0], None)

    def start(self, prepared: Prepared, request: bytes, answer: Response) -> None:
        """Learns a new session."""
        given = read_all(prepared.code.parameters, request)
        answered = answer.handle, answer.parameters
        nonce, bind = given["nonceCaller"], prepared.handles[1]
        kinds = given["authHash"], given["sessionType"], given["symmetric"].algorithm
        session = self.knowledge.started(answered, nonce, bind, *kinds)
        self.sessions[session.handle] = session
        self.demands.pop(session.handle, None)

    def refused(self) -> None:
        """Forgets the authorization values that a refused command contained."""
        self.knowledge.auth_values = self.values_before

    def power_cycle(self) -> None:
        """Forgets sessions and transient objects."""
        self.sessions.clear()
        self.demands.clear()
        gone = [it for it in self.knowledge.names if first_byte(it) == TRANSIENT]
        self.knowledge.forget(*gone)
