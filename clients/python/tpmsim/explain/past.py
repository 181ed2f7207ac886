"""What is known from the events before a command: when each authorization value was set, and which
assertions the policy of each session contains.
"""

from __future__ import annotations

from dataclasses import dataclass, field, replace
from typing import Any, Iterable

from tpmsim.explain.words import command_words, handle_words
from tpmsim.model import nv_commands, object_rules
from tpmsim.model.general import Command
from tpmsim.model.machine import Model
from tpmsim.model.parameters import Parameters
from tpmsim.model.policy_state import Session
from tpmsim.policies.policy_texts import digest_after, texts_after
from tpmsim.policies.written import Said, said_of
from tpmsim.standard import CC, digest, Fields, frames, handle_kinds, HIERARCHIES, is_policy, lines
from tpmsim.standard import values
from tpmsim.standard.values import Bank

# The values of all PCRs, by bank.
Banks = dict[int, list[bytes]]


@dataclass(frozen=True)
class Step:
    """An assertion in the log, with the PCRs that it selects, or the entity whose Name it contains."""

    line: int
    said: Said
    words: str
    selected: list[Bank] | None = None
    handle: int | None = None

    @property
    def code(self) -> CC:
        return self.said.code

    @property
    def place(self) -> int:
        """The position of the PCRs' digest or of the Name among the assertion's values."""
        return 0 if self.selected is None else 1

    @property
    def given(self) -> bytes:
        has_given = self.selected is not None or self.handle is not None
        return bytes(self.said.values[self.place]) if has_given else b""

    def but(self, given: bytes) -> Step:
        """Returns the assertion with a different Name, or with a different digest of the PCRs."""
        values = *self.said.values[: self.place], given, *self.said.values[self.place + 1 :]
        return replace(self, said=Said(self.code, values))

    def after(self, algorithm: int, old: bytes) -> bytes:
        return digest_after(algorithm, texts_after(algorithm, old, self.said.update(algorithm)))


def banks_of(model: Model) -> Banks:
    return {algorithm: list(bank) for algorithm, bank in model.banks.items()}


def values_digest(algorithm: int, selected: Iterable[Any], banks: Banks) -> bytes:
    values = b"".join(banks[bank][pcr] for bank, pcrs in selected for pcr in pcrs)
    return digest(algorithm, values)


def step_of(line: int, command: Command, plain: bytes, model: Model, names: list[bytes]) -> Step:
    code, handles = command.code, command.handles
    algorithm = model.sessions[handles[-1]].algorithm
    said = said_of(
        *(code, plain, names),
        lambda those, given: given or values_digest(algorithm, those, model.banks),
    )
    selected = values.read_all(code.parameters, plain).get("pcrs")
    handle = handles[-2] if code in (CC.PolicySecret, CC.PolicyNV) else None
    return Step(line, said, said_words(code, handles, plain), selected, handle)


def said_words(code: CC, handles: list[int], plain: bytes) -> str:
    """Returns an assertion as the words of a `do` line, without the session and the entries."""
    fields = Fields(plain)
    words = [handle_words(it) for it in handles if not is_policy(it)]
    said = " ".join([code.name, *words, *lines.parameter_words(code, fields)])
    if code == CC.PolicyCommandCode:
        said += f" ({command_words(int.from_bytes(plain, 'big'))})"
    return said


# Why a policy starts over after the session is used.
USED = "which it authorized: each use needs new assertions"

WRITES_PCR = CC.PCR_Extend, CC.PCR_Event, CC.PCR_Reset
# The largest number of PCR states that are stored.
MOST_STATES = 64


@dataclass(frozen=True)
class Since:
    line: int
    value: bytes


@dataclass
class Begun:
    """A live session: the line that started it, its assertions, and the data of its earlier
    entries.
    """

    session: Session
    line: int
    nonce_caller: bytes
    bind: int
    nonces: list[Since] = field(default_factory=list)
    told: list[Step] = field(default_factory=list)
    restarted: int = 0
    restarted_by: str = ""
    last_attributes: int | None = None
    last_nonce: bytes | None = None
    caller_nonces: dict[bytes, int] = field(default_factory=dict)
    own_nonces: dict[bytes, int] = field(default_factory=dict)

    def restart(self, line: int, by: str) -> None:
        self.told, self.restarted, self.restarted_by = [], line, by

    def take(self, line: int) -> None:
        self.nonces.append(Since(line, self.session.nonce_tpm))
        self.own_nonces.setdefault(self.session.nonce_tpm, line)


@dataclass(frozen=True)
class Made:
    line: int
    steps: list[Step]
    banks: Banks


@dataclass(frozen=True)
class Created:
    """An object that TPM2_Create made: the line, its Name, and its parent with the parent's Name and
    hierarchy.
    """

    line: int
    name: bytes
    parent: int
    parent_name: bytes
    hierarchy: int


@dataclass(frozen=True)
class Moved:
    line: int
    pcr: int | None
    words: str


class Past:
    """What a log shows before a command, such as the earlier authorization values of each handle,
    the oldest first.
    """

    def __init__(self, model: Model) -> None:
        self.model = model
        self.names: dict[int, list[Since]] = {}
        self.values: dict[int, list[Since]] = {}
        self.untrimmed: dict[int, bytes] = {}
        self.sessions: dict[int, Begun] = {}
        self.begun: dict[int, int] = {}
        self.ended: dict[int, tuple[int, str]] = {}
        self.moves: list[Moved] = []
        self.tries: list[int] = []
        self.told_once: set[str] = set()
        self.accepted_buffers: dict[bytes, int] = {}
        self.made: dict[bytes, Made] = {}
        self.told_banks: dict[int, Banks] = {}
        self.created: dict[bytes, Created] = {}
        self.pcr_states: list[tuple[int, Banks]] = [(0, banks_of(model))]
        self.seen: dict[int, tuple[object, object]] = {}
        self.last_change: dict[int, str] = {}
        self.follow(0, "the start")

    def power(self, line: int) -> None:
        self.moves.clear()
        self.follow(line, "the power cycle")

    def accepted(
        self, line: int, command: Command, plain: bytes, answered: int | None, names: list[bytes]
    ) -> None:
        """Notes an accepted command. `answered` is the handle that it returned; `names` are the
        Names before the command.
        """
        name = command.code.name
        if command.code in (*WRITES_PCR, CC.Clear) and command.handles[0] != frames.RH_NULL:
            pcr = None if command.code == CC.Clear else command.handles[0]
            words = f"line {line} ({name}{'' if pcr is None else f' of PCR {pcr}'})"
            self.moves.append(Moved(line, pcr, words))
            self.pcr_states = [*self.pcr_states[-MOST_STATES:], (line, banks_of(self.model))]
        self.follow(line, name)
        if command.code == CC.StartAuthSession and answered is not None:
            nonce, bind = Parameters(plain).sized(frames.COMMAND_BYTES), command.handles[1]
            session = self.model.sessions[answered]
            self.sessions[answered] = Begun(session, line, nonce, bind)
            self.sessions[answered].take(line)
        self.note_value(command, plain, answered)
        self.note_entries(line, command)
        if name.startswith("Policy") and command.code != CC.PolicyGetDigest:
            self.note_policy(line, command, plain, names)
        for _, entry, handle in command.places:
            if handle is not None and handle_kinds.is_policy(entry.handle):
                # The policy of a session that authorized a handle starts over.
                if entry.handle in self.sessions:
                    self.sessions[entry.handle].restart(line, f"{name}, {USED}")

    def note_created(self, line: int, command: Command, answered: bytes) -> None:
        """Notes the private area that TPM2_Create returned."""
        fields = Fields(answered)
        private, public = fields.sized(), fields.sized()
        parent = self.model.objects[command.handles[0]]
        name = object_rules.read_public(Parameters(public)).name
        whose = command.handles[0], parent.public.name, parent.hierarchy
        self.created[private] = Created(line, name, *whose)

    def note_value(self, command: Command, plain: bytes, answered: int | None) -> None:
        """Notes an authorization value as it was sent, with its trailing zeros."""
        fields = Parameters(plain)
        if command.code in (CC.HierarchyChangeAuth, CC.NV_ChangeAuth):
            self.untrimmed[command.handles[0]] = fields.sized(frames.COMMAND_BYTES)
        elif command.code == CC.NV_DefineSpace:
            value = fields.sized(frames.COMMAND_BYTES)
            self.untrimmed[fields.structure(nv_commands.read_public).index] = value
        elif command.code == CC.CreatePrimary and answered is not None:
            self.untrimmed[answered] = fields.structure(object_rules.read_sensitive_create)[0]

    def note_entries(self, line: int, command: Command) -> None:
        for _, entry, _ in command.places:
            begun = self.sessions.get(entry.handle)
            if begun is None:
                continue
            begun.last_attributes, begun.last_nonce = entry.attributes, entry.nonce
            if entry.handle in self.model.sessions:
                begun.take(line)
            else:
                del self.sessions[entry.handle]

    def note_policy(self, line: int, command: Command, plain: bytes, names: list[bytes]) -> None:
        handle = next(it for it in reversed(command.handles) if handle_kinds.is_policy(it))
        begun = self.sessions.get(handle)
        if begun is None:
            return
        if command.code == CC.PolicyRestart:
            begun.restart(line, command.code.name)
            return
        begun.told.append(step_of(line, command, plain, self.model, names))
        banks = banks_of(self.model)
        self.made[begun.session.policy.digest] = Made(line, list(begun.told), banks)
        self.told_banks[line] = banks

    def follow(self, line: int, words: str) -> None:
        model = self.model
        now: dict[int, tuple[object, object]] = {at: (it, it) for at, it in model.sessions.items()}
        now |= {at: (it, it) for at, it in model.objects.items()}
        now |= {at: (it, it.public) for at, it in model.indices.items()}
        for handle in [it for it in self.seen if it not in now]:
            self.ended[handle] = line, words
            self.begun.pop(handle, None)
            self.sessions.pop(handle, None)
            del self.seen[handle]
        for handle, those in now.items():
            self.follow_one(line, words, handle, those)
        for handle in HIERARCHIES:
            self.value_is(line, handle)

    def follow_one(self, line: int, words: str, handle: int, those: tuple[object, object]) -> None:
        before = self.seen.get(handle)
        if before is None or before[0] is not those[0]:
            self.begun[handle] = line
            self.names.pop(handle, None)
            self.values.pop(handle, None)
        is_session = handle_kinds.is_session(handle)
        if not is_session and (before is None or before[1] is not those[1]):
            name = self.model.name(handle)
            past = self.names.setdefault(handle, [])
            if not past or past[-1].value != name:
                past.append(Since(line, name))
                self.last_change[handle] = f"line {line} ({words})"
        self.seen[handle] = those
        if not is_session:
            self.value_is(line, handle)

    def value_is(self, line: int, handle: int) -> None:
        past, value = self.values.setdefault(handle, []), self.model.auth_value(handle)
        if not past or past[-1].value != value:
            past.append(Since(line, value))

    def moved_since(self, line: int) -> list[Moved]:
        return [it for it in self.moves if it.line > line]

    def told_words(self, handle: int) -> list[str]:
        begun = self.sessions.get(handle)
        return [f"line {it.line}: {it.words}" for it in begun.told] if begun else []

    def lines_told(self, handle: int, *codes: CC) -> list[int]:
        begun = self.sessions.get(handle)
        return [it.line for it in begun.told if it.code in codes] if begun else []

    def ended_words(self, handle: int) -> str:
        """Returns when an entity ended, as a sentence; empty if it has not."""
        return f"{handle:08x}: {self.gone_words(handle)}." if handle in self.ended else ""

    def gone_words(self, handle: int) -> str:
        if handle not in self.ended:
            return "no earlier command made it"
        line, words = self.ended[handle]
        return f"it ended with line {line} ({words})"
