"""Lists the assertions of each session, in the terms of tpm_policy_meaning (Asserted), and the uses
of the session.
"""

from dataclasses import dataclass, field
from typing import Iterator

from tpmsim.audit.log import section
from tpmsim.audit.watch import Seen
from tpmsim.explain.past import said_words
from tpmsim.explain.words import command_words, handle_words, SESSIONS
from tpmsim.model import history
from tpmsim.model.history import History, LiveSession, Pcrs
from tpmsim.model.parameters import Parameters
from tpmsim.policies.written import Said, said_of
from tpmsim.standard import CC, HASH_WORDS, SE_HMAC
from tpmsim.standard.lines import handle_word


@dataclass(frozen=True)
class Asserted:
    """An accepted assertion; `of` is the text for the entity or index that it is about."""

    line: int
    said: Said
    of: str
    before: bytes
    digest: bytes

    def says(self, said: Said) -> bool:
        """Whether this is the given assertion. PolicyAuthValue and PolicyPassword count as the same
        assertion.
        """
        ask_value = self.said.code in ASK_VALUE and said.code in ASK_VALUE
        return ask_value or self.said == said


ASK_VALUE = CC.PolicyAuthValue, CC.PolicyPassword


def asserted_by(seen: Seen, before: LiveSession, after: LiveSession, pcrs: Pcrs) -> Asserted:
    """Returns the assertion that a command made. In a policy session, TPM2_PolicyPCR asserts the
    current values.
    """
    event, of = seen.accepted, ""
    if event.code in (CC.PolicySecret, CC.PolicyNV):
        of = handle_words(event.handles[0 if event.code == CC.PolicySecret else 1])
    said = said_of(
        *(CC(event.code), event.parameters, event.names),
        lambda selected, _: pcrs.digest(before.algorithm, selected),
    )
    return Asserted(seen.line, said, of, before.policy.digest, after.policy.digest)


@dataclass
class Begun:
    """A session. `line` is the line that started it, `protection` is that of its bind entity, and
    `first_pcr` is the line of its first TPM2_PolicyPCR. `asserted` contains its assertions since
    its policy began, `told` its events as lines of text, and `accepted` the commands that were
    accepted with an HMAC of this session. A session from a state text has no line that started it;
    `before` is the digest that its policy had in the state text. `bound` is the text for its bind
    entity.
    """

    line: int
    protection: str | None = None
    first_pcr: int | None = None
    asserted: list[Asserted] = field(default_factory=list)
    title: str = ""
    told: list[str] = field(default_factory=list)
    accepted: dict[bytes, tuple[int, bytes]] = field(default_factory=dict)
    before: bytes = b""
    bound: str = "an entity"

    def tell(self, line: int, words: str) -> None:
        self.told.append(f"    {f'line {line}' if line else 'before the log'}: {words}")

    @property
    def pcrs(self) -> list[tuple[int, int]]:
        """Returns the PCRs in the session's policy, each with its bank."""
        those = (it.said.values[0] for it in self.asserted if it.said.code == CC.PolicyPCR)
        banks = (bank for text in those for bank in Parameters(text).next().selection())
        return sorted({(bank, pcr) for bank, numbers in banks for pcr in numbers})

    def restart(self) -> None:
        self.first_pcr, self.asserted, self.before = None, [], b""


class SessionLines:
    """The live sessions by handle, and all sessions that have a policy."""

    def __init__(self, told: History, text: str) -> None:
        self.history, self.text = told, text
        self.live: dict[int, Begun] = {}
        self.all: list[Begun] = []
        for handle, session in told.sessions.live.items():
            digest = session.policy.digest
            before = digest if any(digest) else b""
            self.begin(handle, Begun(0, session.bound[2] if session.bound else None, before=before))
            if before:
                self.live[handle].tell(0, f"it has the digest {before.hex()}")

    def words(self, handle: int) -> str:
        line = self.live[handle].line
        return f"line {line}" if line else self.text

    def protection(self, handle: int) -> str | None:
        return self.live[handle].protection if handle in self.live else None

    def assert_on(self, seen: Seen) -> None:
        """Notes an assertion, before it is added to the history."""
        event = seen.accepted
        if event.code not in history.ASSERTIONS:
            return
        handle = event.handles[-1]
        session, begun = self.history.sessions.live[handle], self.live[handle]
        made = history.asserted(event, session, self.history.pcrs)
        if event.code == CC.PolicyPCR and begun.first_pcr is None:
            begun.first_pcr = seen.line
        begun.asserted.append(asserted_by(seen, session, made, self.history.pcrs))
        said = said_words(CC(event.code), event.handles, event.parameters)
        begun.tell(seen.line, f"{said}: {made.policy.digest.hex()}")

    def use_for(self, line: int, session: int, code: CC, handle: int) -> None:
        """Notes that a policy session authorizes the use of an entity, before the use is added to
        the history.
        """
        digest = self.history.sessions.live[session].policy.digest.hex()
        words = f"authorizes {command_words(code)} of {handle_word(handle)} by {digest}"
        self.live[session].tell(line, words)

    def note(self, seen: Seen) -> None:
        """Notes an event that is already in the history."""
        if seen.is_power_cycle:
            for handle in list(self.live):
                self.end(seen.line, handle, "the power cycle ends it")
            return
        event, line = seen.accepted, seen.line
        if event.code == CC.StartAuthSession:
            self.start(seen)
        elif event.code == CC.PolicyRestart:
            self.live[event.handles[0]].restart()
            self.live[event.handles[0]].tell(line, "PolicyRestart discards all assertions")
        elif event.code == CC.PolicyGetDigest:
            self.live[event.handles[0]].tell(line, "PolicyGetDigest returns its digest")
        elif event.code == CC.FlushContext:
            self.end(line, event.given["flushHandle"], "FlushContext ends it")
        for use in event.uses:
            if not use.continues:
                self.end(line, use.handle, f"{command_words(event.code)} ends it")
            elif use.authorizes and use.handle in self.live:
                self.live[use.handle].restart()

    def start(self, seen: Seen) -> None:
        bind = seen.views[1]
        begun = Begun(seen.line, bind.protection, bound=handle_words(bind.handle))
        self.begin(seen.accepted.handle, begun)

    def begin(self, handle: int, begun: Begun) -> None:
        session = self.history.sessions.live[handle]
        self.live[handle] = begun
        if session.kind != SE_HMAC:
            kind, algorithm = SESSIONS[session.kind], HASH_WORDS[session.algorithm]
            begun.title = f"{kind} {handle_word(handle)} of {self.words(handle)}, {algorithm}"
            self.all.append(begun)

    def end(self, line: int, handle: int, words: str) -> None:
        if handle in self.live:
            self.live.pop(handle).tell(line, words)

    def report(self) -> Iterator[str]:
        title = "Policy sessions, with the digest after each assertion"
        told = (row for begun in self.all for row in (f"  {begun.title}", *begun.told))
        return section(title, told, "Policy sessions: none.")
