"""The history of a device: everything that it has accepted, and everything that follows from that:
the values of its PCRs, its counters, its authorization values, and the start, key, nonce and policy
of each session.

Each of these is a fold over the accepted events, starting with the earliest. The fold uses only
facts about the device that the events contain. The rules are those of docs/THEOREMS.md.
"""

from __future__ import annotations

from dataclasses import dataclass, field, replace
from functools import cached_property
from typing import Any, Callable, Iterable, Iterator, TYPE_CHECKING

from tpmsim.model import pcrs, policy_state, state
from tpmsim.standard import CC, digest, digest_bytes, Fields, frames, HIERARCHIES, number, nv, PCRS
from tpmsim.standard import policy, RH_ENDORSEMENT, RH_LOCKOUT, RH_NULL, RH_OWNER, RH_PLATFORM
from tpmsim.standard import RS_PW, sessions, SHA1, SHA256, trimmed
from tpmsim.standard.values import read_all

if TYPE_CHECKING:
    from tpmsim.model.machine import Model
    from tpmsim.model.object_rules import Object


@dataclass(frozen=True)
class Use:
    """An entry of a command: its session, whether the session continues, and whether the entry
    authorizes a handle.
    """

    handle: int
    continues: bool
    authorizes: bool


@dataclass(frozen=True)
class Accepted:
    """An accepted command: its handles, with their Names and protections before the command; its
    entries; its decrypted parameters; the event's random bytes, and the number of them that the
    command itself drew; the returned handle, if any; and, for TPM2_Load, the authorization value in
    the sensitive area.
    """

    code: int
    handles: list[int]
    names: list[bytes]
    protections: list[str | None]
    uses: list[Use]
    parameters: bytes
    random: bytes
    drawn: int
    answered: int | None = None
    loaded: bytes | None = None

    @property
    def handle(self) -> int:
        assert self.answered is not None
        return self.answered

    @cached_property
    def given(self) -> dict[str, Any]:
        return read_all(CC(self.code).parameters, self.parameters)


@dataclass(frozen=True)
class PowerCycle:
    """A power cycle."""


@dataclass(frozen=True)
class ObjectPlaced:
    """An object from a context, which the completing layer loaded with this handle."""

    handle: int
    placed: Object


PastEvent = Accepted | PowerCycle | ObjectPlaced


# PCRs: the current values of each bank, and those at the last shutdown.


@dataclass
class Pcrs:
    """PCR values. `updates` counts the changes of PCRs and each TPM2_Clear; `saved` contains the
    values at the last shutdown.
    """

    values: dict[int, list[bytes]] = field(default_factory=pcrs.starting_banks)
    updates: int = 0
    saved: dict[int, list[bytes]] = field(default_factory=pcrs.starting_banks)

    def set(self, bank: int, pcr: int, value: bytes) -> None:
        self.values[bank][pcr] = value
        self.updates += 1

    def extend(self, pcr: int, values: Iterable[tuple[int, bytes]]) -> None:
        for bank, value in values:
            self.set(bank, pcr, digest(bank, self.values[bank][pcr] + value))

    def power_cycle(self) -> None:
        self.values, self.updates = pcrs.starting_banks(), 0

    def command(self, it: Accepted) -> None:
        pcr = it.handles[0] if it.handles else None
        if it.code == CC.Startup:
            self.updates = 0
            if it.given["startupType"] == state.STATE:
                for bank, values in self.saved.items():
                    self.values[bank][: state.SAVED_PCRS] = values[: state.SAVED_PCRS]
        elif it.code == CC.Shutdown:
            self.saved = {bank: list(values) for bank, values in self.values.items()}
        elif it.code == CC.Clear:
            self.updates += 1
        elif pcr is None or pcr == RH_NULL:
            pass
        elif it.code == CC.PCR_Extend:
            self.extend(pcr, it.given["digests"])
        elif it.code == CC.PCR_Event:
            data = it.given["eventData"]
            self.extend(pcr, [(bank, digest(bank, data)) for bank in (SHA1, SHA256)])
        elif it.code == CC.PCR_Reset:
            for bank in (SHA1, SHA256):
                self.set(bank, pcr, bytes(digest_bytes(bank)))

    def digest(self, algorithm: int, selection: Iterable[tuple[int, Iterable[int]]]) -> bytes:
        values = [self.values[bank][pcr] for bank, numbers in selection for pcr in numbers]
        return digest(algorithm, b"".join(values))


# Authorization values: the value that was last set for each handle. The handles in ALWAYS_THERE
# exist from the start, with an empty value.

ALWAYS_THERE = frozenset((*HIERARCHIES, RH_NULL, *PCRS))


@dataclass
class AuthValues:
    values: dict[int, bytes] = field(default_factory=dict)

    def of(self, handle: int) -> bytes:
        return self.values.get(handle, b"")

    def place(self, it: ObjectPlaced) -> None:
        self.values[it.handle] = it.placed.auth_value

    def command(self, it: Accepted) -> None:
        if it.code in (CC.HierarchyChangeAuth, CC.NV_ChangeAuth):
            self.values[it.handles[0]] = trimmed(it.given["newAuth"])
        elif it.code == CC.NV_DefineSpace:
            self.values[defined_index(it)] = trimmed(it.given["auth"])
        elif it.code == CC.CreatePrimary:
            self.values[it.handle] = trimmed(Fields(it.given["inSensitive"]).sized())
        elif it.code == CC.Load and it.loaded is not None:
            self.values[it.handle] = trimmed(it.loaded)
        elif it.code == CC.EvictControl:
            self.values[it.given["persistentHandle"]] = self.of(it.handles[1])
        elif it.code == CC.Startup and it.given["startupType"] == state.CLEAR:
            self.values[RH_PLATFORM] = b""
        elif it.code == CC.Clear:
            self.values |= {it: b"" for it in (RH_OWNER, RH_ENDORSEMENT, RH_LOCKOUT)}


def defined_index(it: Accepted) -> int:
    return nv.Public.read(it.given["publicInfo"]).index


# Counters: the value of each counter that was incremented since its definition; all values that any
# counter ever had; and the largest of these.


@dataclass
class Counters:
    values: dict[int, int] = field(default_factory=dict)
    all: list[int] = field(default_factory=list)
    largest: int = 0

    def command(self, it: Accepted) -> None:
        if it.code == CC.NV_DefineSpace:
            self.values.pop(defined_index(it), None)
        elif it.code == CC.NV_Increment:
            value = self.values.get(it.handles[1], self.largest) + 1
            self.values[it.handles[1]] = value
            self.all.append(value)
            self.largest = max(self.largest, value)


# Sessions, with their policies. A binding consists of a Name, the entity's authorization value, and
# its protection.
Bound = tuple[bytes, bytes, str | None]


@dataclass(frozen=True)
class LiveSession:
    """A session, with the Name, the authorization value and the protection to which it is bound."""

    kind: int
    algorithm: int
    cipher: int
    bound: Bound | None
    key: bytes
    nonce_tpm: bytes
    policy: policy_state.State


@dataclass
class Sessions:
    """The live sessions. `values` and `auth_values` are the PCR values and the authorization values
    before the command.
    """

    live: dict[int, LiveSession] = field(default_factory=dict)

    def power_cycle(self) -> None:
        self.live = {}

    def command(self, it: Accepted, values: Pcrs, auth_values: AuthValues) -> None:
        if it.code == CC.StartAuthSession:
            self.live[it.handle] = self.started(it, auth_values)
        elif it.code == CC.FlushContext:
            self.live.pop(it.given["flushHandle"], None)
        elif it.code == CC.PolicyRestart:
            self.change(it.handles[0], restarted)
        elif it.code in ASSERTIONS:
            self.change(it.handles[-1], lambda session: asserted(it, session, values))
        self.roll(it)
        for use in it.uses:
            self.end(use)

    def change(self, handle: int, change: Callable[[LiveSession], LiveSession]) -> None:
        self.live[handle] = change(self.live[handle])

    def started(self, it: Accepted, auth_values: AuthValues) -> LiveSession:
        given, bind = it.given, it.handles[1]
        nonce_caller, algorithm = given["nonceCaller"], given["authHash"]
        nonce_tpm, bound, key = it.random[: len(nonce_caller)], None, b""
        if bind != RH_NULL:
            bound = it.names[1], auth_values.of(bind), it.protections[1]
            key = sessions.session_key(algorithm, bound[1], nonce_tpm, nonce_caller)
        kind, cipher = given["sessionType"], given["symmetric"].algorithm
        starting = policy_state.starting_state(algorithm)
        return LiveSession(kind, algorithm, cipher, bound, key, nonce_tpm, starting)

    def roll(self, it: Accepted) -> None:
        """Replaces the nonce of each entry's session, in order, with random bytes of the same size."""
        left = it.random[it.drawn :]
        for use in it.uses:
            if use.handle != RS_PW:
                session = self.live[use.handle]
                size = len(session.nonce_tpm)
                self.live[use.handle] = replace(session, nonce_tpm=left[:size])
                left = left[size:]

    def end(self, use: Use) -> None:
        if use.handle == RS_PW:
            return
        if not use.continues:
            del self.live[use.handle]
        elif use.authorizes and self.live[use.handle].kind == frames.SE_POLICY:
            self.change(use.handle, restarted)


def restarted(session: LiveSession) -> LiveSession:
    return replace(session, policy=policy_state.starting_state(session.algorithm))


# The assertions.
ASSERTIONS = (
    *(CC.PolicyPCR, CC.PolicyOR, CC.PolicyAuthValue, CC.PolicyPassword, CC.PolicyCommandCode),
    *(CC.PolicyCpHash, CC.PolicyNvWritten, CC.PolicyLocality, CC.PolicySecret, CC.PolicyNV),
)


def asserted(it: Accepted, session: LiveSession, values: Pcrs) -> LiveSession:
    was = session.policy
    digest, told = made_of(it, session, values)
    told["cp_hash"] = told.get("cp_hash") or was.cp_hash
    told["localities"] = was.localities & told.get("localities", policy.ALL_LOCALITIES)
    return replace(session, policy=replace(was, digest=digest, **told))


def made_of(it: Accepted, session: LiveSession, values: Pcrs) -> tuple[bytes, dict[str, Any]]:
    algorithm, old, given = session.algorithm, session.policy.digest, it.given
    match it.code:
        case CC.PolicyPCR:
            is_taken = session.kind == frames.SE_TRIAL and given["pcrDigest"]
            taken = given["pcrDigest"] if is_taken else values.digest(algorithm, given["pcrs"])
            made = policy.after_pcr(algorithm, old, frames.selection(*given["pcrs"]), taken)
            return made, {"update_counter": values.updates}
        case CC.PolicyOR:
            return policy.after_or(algorithm, given["pHashList"]), {}
        case CC.PolicyCommandCode:
            code = given["code"]
            return policy.after_command_code(algorithm, old, code), {"code": code}
        case CC.PolicyCpHash:
            cp_hash = given["cpHashA"]
            return policy.after_cp_hash(algorithm, old, cp_hash), {"cp_hash": cp_hash}
        case CC.PolicyNvWritten:
            is_written = bool(given["writtenSet"])
            return policy.after_nv_written(algorithm, old, is_written), {"nv_written": is_written}
        case CC.PolicyLocality:
            localities = given["locality"]
            return policy.after_locality(algorithm, old, localities), {"localities": localities}
        case CC.PolicySecret:
            made = policy.after_secret(algorithm, old, it.names[0], given["policyRef"])
            return made, {"cp_hash": given["cpHashA"]}
        case CC.PolicyNV:
            compared = given["operandB"], number(given["offset"], 2), number(given["operation"], 2)
            return policy.after_nv(algorithm, old, b"".join(compared), it.names[1]), {}
    demand = policy.PASSWORD if it.code == CC.PolicyPassword else policy.AUTH_VALUE
    return policy.after_auth_value(algorithm, old), {"demand": demand}


# The whole history, and its comparison with a device.


@dataclass
class History:
    pcrs: Pcrs = field(default_factory=Pcrs)
    auth_values: AuthValues = field(default_factory=AuthValues)
    counters: Counters = field(default_factory=Counters)
    sessions: Sessions = field(default_factory=Sessions)

    def add(self, event: PastEvent) -> None:
        if isinstance(event, PowerCycle):
            self.pcrs.power_cycle()
            self.sessions.power_cycle()
        elif isinstance(event, ObjectPlaced):
            self.auth_values.place(event)
        else:
            self.sessions.command(event, self.pcrs, self.auth_values)
            self.pcrs.command(event)
            self.auth_values.command(event)
            self.counters.command(event)

    def differences(self, device: Model) -> Iterator[str]:
        """Yields the name of each part of a device that differs from what its history
        determines.
        """
        yield from self.pcr_differences(device)
        yield from self.auth_differences(device)
        yield from self.counter_differences(device)
        yield from self.session_differences(device)

    def pcr_differences(self, device: Model) -> Iterator[str]:
        for bank, values in device.banks.items():
            told = self.pcrs.values[bank]
            if values != told:
                differ = (pcr for pcr, value in enumerate(values) if value != told[pcr])
                yield from (f"PCR {pcr} of bank {bank:04x}" for pcr in differ)
        if device.update_counter != self.pcrs.updates:
            yield "the count of updates"

    def auth_differences(self, device: Model) -> Iterator[str]:
        told = self.auth_values.values
        held = {handle: b"" for handle in told if handle in ALWAYS_THERE} | device.auth_values
        held |= {handle: it.sensitive.auth_value for handle, it in device.objects.items()}
        held |= {handle: it.auth_value for handle, it in device.indices.items()}
        for handle, auth_value in held.items():
            if auth_value != told.get(handle, b""):
                yield f"the authorization value of {handle:08x}"

    def counter_differences(self, device: Model) -> Iterator[str]:
        for handle, index in device.indices.items():
            if index.public.kind == nv.Type.COUNTER:
                stored = int.from_bytes(index.data, "big") if index.data else None
                if stored != self.counters.values.get(handle):
                    yield f"the counter {handle:08x}"
        if device.largest_counter != self.counters.largest:
            yield "the largest value of any counter"

    def session_differences(self, device: Model) -> Iterator[str]:
        if device.sessions.keys() != self.sessions.live.keys():
            yield "which sessions live"
        for handle, session in device.sessions.items():
            told = self.sessions.live.get(handle)
            binding = session.bind, session.bind_auth, session.bind_protection
            bound = binding if told and told.bound else None
            kinds = session.kind, session.algorithm, session.cipher
            has = LiveSession(*kinds, bound, session.key, session.nonce_tpm, session.policy)
            if has != told:
                yield f"the session {handle:08x}"
