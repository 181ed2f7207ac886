"""Finds from the history, without the device's response, why an authorization entry was accepted.
"""

from __future__ import annotations

from dataclasses import dataclass
from typing import Iterator

from tpmsim.audit.lines import PcrLines, ValueLines
from tpmsim.audit.session_lines import SessionLines
from tpmsim.audit.watch import Seen, View
from tpmsim.explain.words import command_words, SESSIONS
from tpmsim.model.general import Command
from tpmsim.model.history import History, LiveSession
from tpmsim.standard import CC, command_hash, DECRYPT, Entry, Fact, HASH_WORDS, is_policy, nv
from tpmsim.standard import policy, RS_PW, SE_POLICY, sessions, trimmed
from tpmsim.standard.lines import handle_word


@dataclass(frozen=True)
class Use:
    """An authorization entry of a command: the entity that it authorizes, if any, and its session
    as the history knows it.
    """

    seen: Seen
    place: int
    entry: Entry
    handle: int | None
    held: View | None
    value: bytes
    live: LiveSession | None

    @property
    def code(self) -> CC:
        return self.seen.command.code

    @property
    def view(self) -> View:
        assert self.held is not None
        return self.held

    @property
    def session(self) -> LiveSession:
        assert self.live is not None
        return self.live

    @property
    def authorized(self) -> int:
        assert self.handle is not None
        return self.handle

    @property
    def is_policy(self) -> bool:
        return is_policy(self.entry.handle)

    @property
    def demand(self) -> str | None:
        return self.live.policy.demand if self.live and self.is_policy else None

    @property
    def is_password(self) -> bool:
        return self.entry.handle == RS_PW

    @property
    def is_bound(self) -> bool:
        bound = self.session.bound
        return bound is not None and bound[:2] == (self.view.name, self.value)

    @property
    def takes_value(self) -> bool:
        """Whether the entry uses the authorization value of the entity, as the password or in the
        HMAC's key.
        """
        if self.handle is None:
            return False
        if self.live is None or self.is_policy:
            return self.is_password or self.demand is not None
        return not self.is_bound

    @property
    def cp_hash(self) -> bytes:
        algorithm, command = self.session.algorithm, self.seen.command
        return command_hash(algorithm, command.code, self.seen.names, command.parameters)


class Grounds:
    def __init__(
        self,
        history: History,
        session_lines: SessionLines,
        pcr_lines: PcrLines,
        value_lines: ValueLines,
    ) -> None:
        self.history, self.sessions = history, session_lines
        self.pcrs, self.values = pcr_lines, value_lines

    def uses(self, seen: Seen) -> Iterator[Use]:
        for place, entry, handle in seen.command.places:
            session = self.history.sessions.live.get(entry.handle)
            if handle is None:
                yield Use(seen, place, entry, None, None, b"", session)
            else:
                value = self.history.auth_values.of(handle)
                yield Use(seen, place, entry, handle, seen.view(handle), value, session)

    def title(self, use: Use) -> str:
        if use.is_password:
            return "by password"
        if use.live is None:
            return f"by session {handle_word(use.entry.handle)}, which is not there"
        begun = self.sessions.words(use.entry.handle)
        return f"by {SESSIONS[use.live.kind]} {handle_word(use.entry.handle)} of {begun}"

    def findings(self, use: Use) -> list[Finding]:
        if not use.is_password and use.live is None:
            return [Finding(False, "there is no such session")]
        if use.handle is None:
            return [self.hmac(use)]
        if use.is_policy:
            of_policy = conditions(use, self.history, self.sessions, self.pcrs)
            is_told = use.demand == policy.PASSWORD
            return [*of_policy, self.password(use) if is_told else self.hmac(use)]
        shown = self.password(use) if use.is_password else self.hmac(use)
        if use.view.takes_auth_value(use.code):
            return [shown]
        none = f"no authorization value authorizes it for {command_words(use.code)}"
        return [Finding(False, none), shown]

    def pcr_words(self, use: Use) -> list[str]:
        """Returns the values that the PCRs in the session's policy have when the session is used."""
        begun = self.sessions.live.get(use.entry.handle)
        return [self.pcrs.words(*it) for it in begun.pcrs] if begun else []

    def password(self, use: Use) -> Finding:
        holds = trimmed(use.entry.hmac) == use.value
        told = self.values.words(use.authorized, use.value)
        return Finding(holds, f"the password is {told}" if holds else f"the password is not {told}")

    def hmac(self, use: Use) -> Finding:
        key = use.session.key + (use.value if use.takes_value else b"")
        if not key and not use.entry.hmac:
            return Finding(True, "key and hmac are both empty")
        those = use.seen.command.others(use.place, use.handle)
        others = [self.history.sessions.live[it].nonce_tpm for it in those]
        given = use.session.algorithm, key, use.cp_hash, use.entry.nonce, use.session.nonce_tpm
        wanted = sessions.entry_hmac(*given, others, use.entry.attributes)
        holds = use.entry.hmac == wanted
        parts = ["the session's key"] if use.session.key else []
        if use.takes_value and use.value:
            parts.append(self.values.words(use.authorized, use.value))
        told = " and ".join(parts) or "an empty key"
        return Finding(holds, f"its hmac {'holds' if holds else 'does not hold'}, under {told}")

    def plain_parameters(self, command: Command) -> bytes:
        """Returns the parameters, with the first one decrypted if a session encrypts it."""
        found = command.with_attribute(DECRYPT)
        if not found:
            return command.parameters
        _, entry, handle = found
        session = self.history.sessions.live[entry.handle]
        key = session.key + (b"" if handle is None else self.history.auth_values.of(handle))
        given = session.cipher, session.algorithm, key, entry.nonce, session.nonce_tpm
        return sessions.first_decrypted(*given, command.parameters)


# The conditions under which a policy session authorizes. Each is checked against the history.


@dataclass(frozen=True)
class Finding:
    """A condition: whether it holds, and what was found, as text."""

    holds: bool
    words: str


def either(holds: bool, words: str, other: str) -> Finding:
    return Finding(holds, words if holds else other)


def conditions(
    use: Use, history: History, session_lines: SessionLines, pcr_lines: PcrLines
) -> Iterator[Finding]:
    """Yields the conditions that always apply, and then those that the session's assertions
    require.
    """
    told, view = use.session.policy, use.view
    is_policy = use.session.kind == SE_POLICY
    of_trial = "it is a trial session, which authorizes nothing"
    yield either(is_policy, "it is a policy session, and not a trial one", of_trial)
    takes_policy = view.takes_policy(use.code)
    who = "a policy may authorize" if takes_policy else "no policy authorizes"
    yield Finding(takes_policy, f"{who} this entity for {command_words(use.code)}")
    if told.update_counter is not None:
        first = session_lines.live[use.entry.handle].first_pcr or 0
        since = f"its first TPM2_PolicyPCR, {f'line {first}' if first else 'before the log'}"
        yield either(
            pcr_lines.last_change <= first and history.pcrs.updates == told.update_counter,
            f"no PCR was written and no TPM2_Clear accepted since {since}",
            f"{pcr_lines.change} after {since}",
        )
    yield from told_conditions(use)
    if view.public is not None:
        own, wanted = HASH_WORDS[use.session.algorithm], HASH_WORDS[view.public.name_algorithm]
        other = f"its hash is {own}, and the entity's nameAlg is {wanted}"
        yield either(own == wanted, f"its hash is the entity's nameAlg, {own}", other)
        auth_policy, has = view.public.auth_policy, "its digest by the history is"
        other = f"{has} {told.digest.hex()}, and the authPolicy is {auth_policy.hex() or '-'}"
        same = f"{has} the authPolicy, {told.digest.hex()}"
        yield either(told.digest == auth_policy, same, other)


def told_conditions(use: Use) -> Iterator[Finding]:
    told = use.session.policy
    if told.code is not None:
        words = f"its command code is that of {command_words(told.code)}"
        yield Finding(told.code == use.code, words)
    elif use.code.has(Fact.ADMIN):
        yield Finding(False, "it has no command code, which the role ADMIN requires")
    if told.cp_hash is not None:
        cp_hash, of = told.cp_hash.hex(), "that of the command"
        other = f"its cpHash is not {of}: {cp_hash}"
        yield either(told.cp_hash == use.cp_hash, f"its cpHash is {of}, {cp_hash}", other)
    if told.nv_written is not None:
        yield of_written(told.nv_written, use)
    if told.localities != policy.ALL_LOCALITIES:
        allowed = [str(it) for it in range(5) if told.localities >> it & 1]
        holds = str(use.seen.locality) in allowed
        one = "one" if holds else "none"
        yield Finding(holds, f"locality {use.seen.locality} is {one} of {', '.join(allowed)}")


def of_written(told: bool, use: Use) -> Finding:
    wanted = "written" if told else "not written"
    if use.view.index is None:
        return Finding(False, f"it must be an NV index that is {wanted}, but is not an NV index")
    is_written = use.view.index.has(nv.Attribute.WRITTEN)
    other = f"it must be {wanted}, but is {'' if is_written else 'not '}written"
    return either(is_written == told, f"it is {wanted}, as its session asserted", other)
