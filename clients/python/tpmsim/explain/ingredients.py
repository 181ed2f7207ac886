"""The ingredients of an entry's HMAC, and of the encryption of a first parameter."""

from dataclasses import dataclass
from typing import Callable, Iterator, NamedTuple

from tpmsim.explain.past import Begun, Since
from tpmsim.explain.reason import Client, Fact, Scene
from tpmsim.explain.words import attribute_words, bytes_words, command_words, handle_words
from tpmsim.model.general import Command, read_area
from tpmsim.model.policy_state import Session
from tpmsim.standard import CC, DECRYPT, digest, Entry, Fields, frames, handle_kinds, HASH_WORDS
from tpmsim.standard import HEADER_BYTES, number, policy, sessions, Short


def joined(*parts: bytes) -> bytes:
    return b"".join(parts)


class Ingredients(NamedTuple):
    """The ingredients of an HMAC. `code` precedes the Names in cpHash; `auth_value` is empty if it
    is not in the key. The last five fields are functions, which compute from the other fields the
    key, the text of cpHash, cpHash, the HMAC's text and the HMAC.
    """

    algorithm: int
    session_key: bytes
    auth_value: bytes
    hash_algorithm: int
    code: bytes
    names: tuple[bytes, ...]
    parameters: bytes
    newer: bytes
    older: bytes
    others: tuple[bytes, ...]
    attributes: bytes
    key_of: Callable[[bytes, bytes], bytes] = joined
    text_of: Callable[[bytes, bytes, bytes], bytes] = joined
    cp_hash_of: Callable[[int, bytes], bytes] = digest
    message_of: Callable[[bytes, bytes, bytes, bytes, bytes], bytes] = joined
    mac_of: Callable[[int, bytes, bytes], bytes] = sessions.mac

    @property
    def key(self) -> bytes:
        return self.key_of(self.session_key, self.auth_value)

    @property
    def cp_hash(self) -> bytes:
        text = self.text_of(self.code, b"".join(self.names), self.parameters)
        return self.cp_hash_of(self.hash_algorithm, text)

    @property
    def message(self) -> bytes:
        others = b"".join(self.others)
        return self.message_of(self.cp_hash, self.newer, self.older, others, self.attributes)

    @property
    def hmac(self) -> bytes:
        return self.mac_of(self.algorithm, self.key, self.message)


@dataclass
class Use:
    """A session's entry in its command: its position, counted from 1, and what it authorizes, if
    anything.
    """

    scene: Scene
    place: int
    entry: Entry
    handle: int | None
    session: Session
    begun: Begun | None

    @property
    def code(self) -> CC:
        return self.scene.code

    @property
    def command(self) -> Command:
        return self.scene.command

    @property
    def code_words(self) -> str:
        return self.code.name

    @property
    def buffer(self) -> bytes:
        return self.scene.buffer

    @property
    def handles(self) -> list[int]:
        return self.command.handles

    @property
    def entries(self) -> list[Entry]:
        return self.command.entries or []

    @property
    def authorized(self) -> int:
        assert self.handle is not None
        return self.handle

    @property
    def authorized_words(self) -> str:
        return handle_words(self.authorized)

    @property
    def is_policy(self) -> bool:
        return handle_kinds.is_policy(self.entry.handle)

    @property
    def auth_value(self) -> bytes:
        return self.scene.model.auth_value(self.handle)

    @property
    def past_values(self) -> list[Since]:
        """Returns the earlier authorization values of the entity that the entry authorizes."""
        return [] if self.handle is None else self.scene.past.values.get(self.handle, [])[:-1]

    @property
    def takes_value(self) -> bool:
        return self.scene.model.uses_auth_value(self.entry, self.handle)

    @property
    def was_bound(self) -> bool:
        """Whether the session was started with a binding to the entity that the entry authorizes,
        even if this binding has ended.
        """
        if self.begun is None or self.is_policy or self.handle is None:
            return False
        names = [it.value for it in self.scene.past.names.get(self.handle, [])]
        return self.begun.bind == self.handle or self.session.bind in names

    @property
    def is_bound_now(self) -> bool:
        """Whether the session is bound to the authorized entity, and the entity's authValue is
        unchanged since the session was started.
        """
        return self.handle is not None and self.scene.model.is_bound(self.session, self.handle)

    @property
    def has_unshown_binding(self) -> bool:
        """Whether the session's key contains the value of a bind entity, but the entry contains a
        password instead of an HMAC with that key.
        """
        is_told = self.is_policy and self.entry.demand == policy.PASSWORD
        return is_told and bool(self.session.bind_auth) and not self.is_bound_now

    @property
    def has_unshown_value(self) -> bool:
        """Whether the authorized entity has a value that the caller did not have to know, since a
        policy authorizes the use of the entity.
        """
        is_asked = self.takes_value or self.is_bound_now
        return self.handle is not None and bool(self.auth_value) and not is_asked

    def right(self) -> Ingredients:
        model, command, algorithm = self.scene.model, self.command, self.session.algorithm
        value = self.auth_value if self.takes_value else b""
        names = tuple(model.names(command))
        others = tuple(model.nonces_of_others(command, self.place, self.handle))
        nonces = self.entry.nonce, self.session.nonce_tpm, others
        return Ingredients(
            *(algorithm, self.session.key, value, algorithm, number(command.code, 4), names),
            *(command.parameters, *nonces, number(self.entry.attributes, 1)),
        )

    def value_words(self) -> str:
        if self.handle is None:
            return "not in the key: the entry authorizes nothing"
        said = handle_words(self.handle)
        if self.is_policy:
            if self.entry.demand == policy.AUTH_VALUE:
                return f"in the key: the policy asserts PolicyAuthValue; that of {said}"
            return "not in the key: the policy does not assert PolicyAuthValue"
        if not self.takes_value:
            return f"not in the key: the session is bound to {said}"
        if self.was_bound:
            return f"in the key: the binding to {said} has lapsed, {self.lapse_words()}"
        return f"in the key: the session is not bound to {said}"

    def lapse_words(self) -> str:
        past, handle, words = self.scene.past, self.authorized, []
        if self.session.bind != self.scene.model.name(handle):
            words.append(f"as its Name is another one since {past.last_change.get(handle, '?')}")
        if self.session.bind_auth != self.auth_value:
            line = past.values[handle][-1].line
            words.append(f"as its authValue is another one since line {line}")
        return " and ".join(words)


@dataclass
class ClientUse(Use):
    """The use of a session in a client's command on sequences. The completing layer checked its
    HMAC, and sent the command of the scene instead. `entry` is that of the client's command.
    `handle` is the key or the PCR that the entry authorizes, or None if the entry authorizes a
    sequence.
    """

    client: Client

    @property
    def code_words(self) -> str:
        return command_words(self.client.use.code)

    @property
    def buffer(self) -> bytes:
        return self.client.buffer

    @property
    def entries_at(self) -> int:
        return HEADER_BYTES + 4 * len(self.client.use.names)

    @property
    def handles(self) -> list[int]:
        places = range(HEADER_BYTES, self.entries_at, 4)
        return [int.from_bytes(self.buffer[at : at + 4], "big") for at in places]

    @property
    def entries(self) -> list[Entry]:
        return read_area(Fields(self.buffer[self.entries_at :]))

    @property
    def authorized_words(self) -> str:
        return super().authorized_words if self.handle is not None else self.sequence_words

    @property
    def sequence_words(self) -> str:
        return f"the sequence {self.handles[0]:08x}"

    @property
    def auth_value(self) -> bytes:
        return super().auth_value if self.handle is not None else self.client.use.auth_value

    @property
    def takes_value(self) -> bool:
        # The session may have ended with the command that the layer sent.
        return not self.is_bound_now

    def right(self) -> Ingredients:
        it, algorithm = self.client.use, self.session.algorithm
        return Ingredients(
            *(algorithm, self.session.key, it.auth_value, algorithm, number(it.code, 4), it.names),
            *(it.parameters, self.entry.nonce, self.session.nonce_tpm, ()),
            number(self.entry.attributes, 1),
        )

    def value_words(self) -> str:
        if self.handle is not None:
            return super().value_words()
        return f"in the key: that of {self.sequence_words}"


def use_of(scene: Scene, place: int) -> Use | None:
    """Returns the use of a session in the entry at a position; None if the entry is a password."""
    for at, entry, handle in scene.command.places:
        if at != place:
            continue
        begun, client = scene.past.sessions.get(entry.handle), scene.client
        if client is not None:
            given = client.use.entry, handle, client.use.session, begun
            return ClientUse(scene, place, *given, client)
        if entry.handle in scene.model.sessions:
            return Use(scene, place, entry, handle, scene.model.sessions[entry.handle], begun)
    return None


def facts(use: Use) -> list[Fact]:
    right = use.right()
    since = use.begun.nonces[-1].line if use.begun and use.begun.nonces else 0
    names = zip(use.handles, right.names)
    return [
        Fact("hash", HASH_WORDS[right.algorithm]),
        Fact("session key", bytes_words(right.session_key) + key_words(use)),
        Fact("authValue", f"{bytes_words(use.auth_value)}; {use.value_words()}"),
        Fact("key", right.key.hex() or "empty"),
        Fact("commandCode", right.code.hex()),
        *(Fact(f"Name of {handle_words(it)}", name.hex() or "empty") for it, name in names),
        Fact("parameters as sent", right.parameters.hex() or "empty"),
        Fact("cpHash", right.cp_hash.hex()),
        Fact("nonceCaller", right.newer.hex() or "empty"),
        Fact("nonceTPM", right.older.hex() + (f" (line {since})" if since else "")),
        *(Fact("nonceTPM of another session", other.hex()) for other in right.others),
        Fact("attributes", attribute_words(use.entry.attributes)),
    ]


def key_words(use: Use) -> str:
    if use.begun is None or not use.session.key:
        return ""
    bind, line = handle_words(use.begun.bind), use.begun.line
    return f" (of {bind}'s authValue and the nonces of line {line})"


@dataclass(frozen=True)
class Otherwise:
    """A mistake that a caller may have made when it encrypted, and the parameters that the caller
    then meant to send.
    """

    name: str
    words: str
    plain: bytes


def decrypting_use(scene: Scene) -> Use | None:
    """Returns the entry whose session decrypts, if the first parameter of the command is complete."""
    found = scene.known.with_attribute(DECRYPT) if scene.known else None
    if found is None:
        return None
    try:
        Fields(scene.command.parameters).sized()
    except Short:
        return None
    return use_of(scene, found[0])


def otherwise(scene: Scene) -> Iterator[Otherwise]:
    use = decrypting_use(scene)
    seen = {scene.plain}
    for it in mistakes(use, scene.command.parameters) if use else ():
        if it.plain not in seen:
            seen.add(it.plain)
            yield it


def mistakes(use: Use, sent: bytes) -> Iterator[Otherwise]:
    session, value, nonce = use.session, use.auth_value, use.entry.nonce

    def by(
        name: str,
        words: str,
        key: bytes = session.key + value,
        newer: bytes = nonce,
        older: bytes = session.nonce_tpm,
        cipher: int = session.cipher,
    ) -> Otherwise:
        algorithm = session.algorithm
        plain = sessions.first_decrypted(cipher, algorithm, key, newer, older, sent)
        return Otherwise(name, words, plain)

    words = "it was sent in plain, and the entry has the attribute decrypt"
    yield Otherwise("not encrypted", words, sent)
    if value:
        words = "the authValue was left out of the key of the encryption, where it always is"
        yield by("mask without authValue", words, session.key)
    if session.key:
        words = "the session key was left out of the key of the encryption"
        yield by("mask without session key", words, value)
    words = "the nonces were swapped in the key of the encryption"
    yield by("mask with nonces swapped", words, newer=session.nonce_tpm, older=nonce)
    for past in use.begun.nonces[-4:-1] if use.begun else []:
        words = f"it was encrypted with the nonceTPM of line {past.line}, which is outdated"
        yield by("mask with an old nonceTPM", words, older=past.value)
    for since in use.past_values:
        words = f"it was encrypted with the authValue of line {since.line}, which is outdated"
        yield by("mask with an old authValue", words, session.key + since.value)
    other = frames.XOR if session.cipher == frames.AES else frames.AES
    words = "it was encrypted by the other cipher, XOR for AES or AES for XOR"
    yield by("other cipher", words, cipher=other)
