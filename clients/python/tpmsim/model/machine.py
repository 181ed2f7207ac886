"""A second implementation of the device, in plain Python: its response to each event, and its state
afterwards.

It shares no code with the product, and its rules are those of docs/table.
"""

from __future__ import annotations

from dataclasses import dataclass, field
from functools import partial
from typing import Any, Callable

from tpmsim.model import capability, complete_commands, general, history, nv_commands
from tpmsim.model import object_commands, pcrs, persistent, policy_commands, policy_state
from tpmsim.model import protection, state
from tpmsim.model.general import Answer, Command, Refusal
from tpmsim.model.history import Accepted, PastEvent
from tpmsim.model.nv_commands import Index
from tpmsim.model.object_rules import Object
from tpmsim.model.parameters import buffer, choice, integer, Parameters, Request, takes
from tpmsim.model.policy_state import Session
from tpmsim.standard import aes, CC, DECRYPT, digest_bytes, ENCRYPT, Entry, Fact, Fields, frames
from tpmsim.standard import handle_kinds, number, nv, objects, policy, RH_ENDORSEMENT, RH_LOCKOUT
from tpmsim.standard import RH_NULL, RH_OWNER, RH_PLATFORM, RS_PW, sessions, Short, sized, TRANSIENT
from tpmsim.standard import Profile, trimmed
from tpmsim.standard.aes_tables import encrypt_block
from tpmsim.standard.objects import Attribute

# The largest number of bytes that TPM2_GetRandom returns.
RANDOM_AT_ONCE = 32

# The largest size of the data for TPM2_StirRandom.
MOST_STIRRED = 128

# The largest number of sessions, and the least size of a nonce.
SESSIONS = policy_state.SESSIONS
LEAST_NONCE = 16

# The device is manufactured with the bytes 00 to ff: first the seeds of these hierarchies, then
# their proofs.
WITH_SEEDS = RH_OWNER, RH_ENDORSEMENT, RH_PLATFORM, RH_NULL
MANUFACTURED = bytes(range(256))

# The first byte of a session's handle, by the session's type. The other bytes are the number of the
# session's slot.
HANDLE_KINDS = {
    frames.SE_HMAC: frames.HMAC_SESSION,
    frames.SE_POLICY: frames.POLICY_SESSION,
    frames.SE_TRIAL: frames.POLICY_SESSION,
}
PLACE_BITS = 0xFF_FFFF

# The response MEMORY, which means that allocation failed for the command, and the name of this
# refusal in a trace.
STARVED, MEMORY_CHECK = frames.refusal(0x904), "M"


@dataclass(frozen=True)
class Row:
    """A command's code, or 0 if its header is refused; and the check that refused it, or `ok`."""

    code: int
    check: str

    @classmethod
    def of(cls, buffer: bytes, check: str) -> Row:
        is_known = check not in general.HEADER_CHECKS
        return cls(int.from_bytes(buffer[6:10], "big") if is_known else 0, check)


@dataclass(frozen=True)
class Outcome:
    """The outcome of a command: `refused` names the response code, or is None on success.
    `operands` are those of the refusal.
    """

    response: bytes
    row: Row
    refused: str | None = None
    operands: dict[str, Any] = field(default_factory=dict, compare=False)


class Model(
    pcrs.Commands,
    policy_commands.Commands,
    object_commands.Commands,
    nv_commands.Commands,
    persistent.Commands,
    protection.Commands,
    state.Commands,
    capability.Commands,
    complete_commands.Commands,
):
    """The device. It calls `tell` with each accepted event. It is manufactured with 256 bytes, and
    uses the block cipher of aes_tables.py unless another is passed. Its profile never changes.
    """

    def __init__(
        self,
        manufactured: bytes = MANUFACTURED,
        block_cipher: aes.BlockCipher = encrypt_block,
        profile: Profile = Profile.SYMMETRIC,
    ) -> None:
        self.block_cipher, self.profile = block_cipher, profile
        self.auth_values = {}
        self.disable_clear = False
        self.lockout = protection.Lockout()
        self.clock = self.reset_count = self.restart_count = 0
        self.saved, self.saved_banks = state.Saved.NONE, {}
        self.objects, self.indices, self.largest_counter = {}, {}, 0
        seeds_and_proofs = state.secrets(manufactured, 2 * len(WITH_SEEDS))
        self.seeds = dict(zip(WITH_SEEDS, seeds_and_proofs))
        self.proofs = dict(zip(WITH_SEEDS, seeds_and_proofs[len(WITH_SEEDS) :]))
        self.power_cycle()

    def power_cycle(self) -> None:
        self.tell(history.PowerCycle())
        self.started = False
        self.banks = pcrs.starting_banks()
        self.update_counter = 0
        self.objects = {at: it for at, it in self.objects.items() if persistent.is_persistent(at)}
        self.sessions = {}
        self.time = 0
        self.lockout.power_cycle()

    def execute(
        self,
        buffer: bytes,
        locality: int,
        random: bytes,
        elapsed: int = 0,
        is_starved: bool = False,
    ) -> Outcome:
        """Executes a command after the elapsed time. If allocation fails for the command, only the
        elapsed time changes the device.
        """
        self.tick(elapsed)
        if is_starved:
            return Outcome(STARVED, Row.of(buffer, MEMORY_CHECK), "MEMORY")
        try:
            command = general.decode(buffer, self)
            self.authorize(command, locality)
            plain, shown = self.plain_parameters(command), self.shown(command)
            parameters = Parameters(plain)
            request = Request(command.handles, parameters, locality, random)
            answer = ROWS[command.code](self, request)
        except Refusal as refusal:
            self.lockout.count(refusal.touched)
            response = frames.refusal(frames.code_of(refusal.name))
            row = Row.of(buffer, refusal.check)
            return Outcome(response, row, refusal.name, refusal.operands)
        if not command.code.has(Fact.KEEPS_SAVED):
            self.saved = state.Saved.NONE
        self.tell(self.accepted(command, shown, plain, answer, random))
        return Outcome(self.success(command, answer, random), Row(command.code, "ok"))

    def place(self, kept: Object) -> int | None:
        """Places the object of a context in the lowest free slot. Returns its handle, or None if no
        slot is free.
        """
        free = self.free_objects()
        if not free:
            return None
        self.objects[free[0]] = kept
        self.tell(history.ObjectPlaced(free[0], kept))
        return free[0]

    @staticmethod
    def tell(event: PastEvent) -> None:
        """Called with each accepted event. Does nothing by default."""

    def accepted(
        self,
        command: Command,
        shown: tuple[list[bytes], list[str | None]],
        plain: bytes,
        answer: Answer,
        random: bytes,
    ) -> Accepted:
        """Returns the event of a command that has taken effect. The Names are those before the
        effect.
        """
        goes_on = frames.CONTINUE_SESSION
        uses = [
            history.Use(it.handle, bool(it.attributes & goes_on), handle is not None)
            for _, it, handle in command.places
        ]
        answered = int.from_bytes(answer.handle, "big") if answer.handle else None
        loaded = None
        if answered is not None and command.code == CC.Load:
            loaded = self.objects[answered].sensitive.auth_value
        return history.Accepted(
            *(command.code, command.handles, *shown, uses, plain),
            *(random, answer.drawn, answered, loaded),
        )

    def held(self, handle: int) -> Object | Index | None:
        return self.objects.get(handle) or self.indices.get(handle)

    def name(self, handle: int) -> bytes:
        held = self.held(handle)
        return held.public.name if held else sessions.name_of(handle)

    def shown(self, command: Command) -> tuple[list[bytes], list[str | None]]:
        return self.names(command), [self.protection(it) for it in command.handles]

    def names(self, command: Command) -> list[bytes]:
        return [self.name(it) for it in command.handles]

    def auth_value(self, handle: int | None) -> bytes:
        """Returns a handle's authorization value; empty for a PCR, for TPM_RH_NULL and for None."""
        if handle is None:
            return b""
        held = self.held(handle)
        return held.auth_value if held else self.auth_values.get(handle, b"")

    def protection(self, handle: int) -> str | None:
        """Returns which protection counts wrong authorization values for a handle, if any."""
        if handle == RH_LOCKOUT:
            return protection.LOCKOUT_AUTH
        held = self.held(handle)
        return protection.TRIES if held and not held.public.is_free else None

    def takes_auth_value(self, handle: int, code: CC) -> bool:
        if handle in self.objects:
            return self.objects[handle].public.has(Attribute.USER_WITH_AUTH)
        if handle in self.indices:
            return nv_commands.takes_auth_value(self.indices[handle].public, code)
        return True

    def auth_value_lack(self, handle: int, code: CC) -> str:
        """Returns the attribute without which a handle's authorization value does not authorize a
        command; `ADMIN` if no attribute lets it authorize the command.
        """
        if handle in self.objects:
            return "userWithAuth"
        return "ADMIN" if code.has(Fact.ADMIN) else nv_commands.auth_value_attribute(code).name

    def policy_entity(self, handle: int, code: CC) -> objects.Public | nv.Public | None:
        """Returns the entity that a policy can authorize: an object or an index whose attributes
        allow it; otherwise None.
        """
        held = self.held(handle)
        return held.public if held and not self.policy_lack(handle, code) else None

    def policy_lack(self, handle: int, code: CC) -> str:
        """Returns what a handle lacks, so that no policy can authorize a command with it: an
        `entity`, an attribute or an `authPolicy`; empty if a policy can authorize it.
        """
        held = self.held(handle)
        if held is None:
            return "entity"
        if isinstance(held, Index) and not nv_commands.takes_policy(held.public, code):
            return nv_commands.policy_attribute(code).name
        return "" if held.public.auth_policy else "authPolicy"

    def written(self, handle: int) -> bool | None:
        """Whether an NV index is written; None for any other entity."""
        if handle not in self.indices:
            return None
        return self.indices[handle].public.has(nv.Attribute.WRITTEN)

    def is_bound(self, session: Session, handle: int) -> bool:
        now = self.name(handle), self.auth_value(handle)
        return (session.bind, session.bind_auth) == now

    def uses_auth_value(self, entry: Entry, handle: int | None) -> bool:
        """Whether the handle's authorization value is the password, or is in the hmac's key."""
        if handle is None:
            return False
        if entry.handle == RS_PW:
            return True
        if handle_kinds.is_policy(entry.handle):
            return entry.demand is not None
        return not self.is_bound(self.sessions[entry.handle], handle)

    def key(self, entry: Entry, handle: int | None) -> bytes:
        uses = self.uses_auth_value(entry, handle)
        return self.sessions[entry.handle].key + (self.auth_value(handle) if uses else b"")

    def encryption_key(self, session: Session, handle: int | None) -> bytes:
        """Returns the key that encrypts and decrypts parameters. It includes the authorization
        value even if the session is bound.
        """
        return session.key + self.auth_value(handle)

    def touched(self, entry: Entry, handle: int | None) -> str | None:
        """Returns which protection counts a wrong entry: that of the value that the entry uses, or
        else that of the value from which the session's key was made.
        """
        if handle is not None and self.uses_auth_value(entry, handle) and self.protection(handle):
            return self.protection(handle)
        session = self.sessions.get(entry.handle)
        return session.bind_protection if session else None

    def nonces_of_others(self, command: Command, place: int, handle: int | None) -> list[bytes]:
        return [self.sessions[it].nonce_tpm for it in command.others(place, handle)]

    def accepts(self, command: Command, place: int, entry: Entry, handle: int | None) -> bool:
        if entry.handle == RS_PW or entry.demand == policy.PASSWORD:
            return trimmed(entry.hmac) == self.auth_value(handle)
        session = self.sessions[entry.handle]
        key = self.key(entry, handle)
        if not key and not entry.hmac:
            return True
        given = session.algorithm, key, self.cp_hash(session, command), entry.nonce
        others = self.nonces_of_others(command, place, handle)
        wanted = sessions.entry_hmac(*given, session.nonce_tpm, others, entry.attributes)
        return entry.hmac == wanted

    def cp_hash(self, session: Session, command: Command) -> bytes:
        names = self.names(command)
        return sessions.command_hash(session.algorithm, command.code, names, command.parameters)

    def check_policy(
        self, command: Command, place: int, entry: Entry, handle: int, locality: int
    ) -> None:
        session, code = self.sessions[entry.handle], command.code
        cp_hash, is_written = self.cp_hash(session, command), self.written(handle)
        now = cp_hash, is_written, self.update_counter, locality
        use = policy_state.Use(code, code.has(Fact.ADMIN), *now, self.policy_lack(handle, code))
        policy_state.check_use(session, self.policy_entity(handle, command.code), use, place)
        entry.demand = session.policy.demand

    def authorize(self, command: Command, locality: int) -> None:
        for place, entry, handle in command.places:
            check = "G10" if handle is None else "G9"
            refusal = partial(Refusal, check=check, place=place)
            if handle is not None and handle_kinds.is_policy(entry.handle):
                self.check_policy(command, place, entry, handle, locality)
            elif handle is not None and not self.takes_auth_value(handle, command.code):
                case = self.auth_value_lack(handle, command.code)
                raise refusal("AUTH_UNAVAILABLE", case=case)
            touched = self.touched(entry, handle)
            if self.lockout.refuses(touched):
                raise refusal("LOCKOUT", protection=touched)
            if not self.accepts(command, place, entry, handle):
                name = "AUTH_FAIL" if touched else "BAD_AUTH"
                raise refusal(f"{name}/s{place}", touched=touched, protection=touched)

    def plain_parameters(self, command: Command) -> bytes:
        found = command.with_attribute(DECRYPT)
        if not found:
            return command.parameters
        _, entry, handle = found
        try:
            Fields(command.parameters).sized()
        except Short:
            raise Refusal("INSUFFICIENT/p1", "G10") from None
        session = self.sessions[entry.handle]
        given = session.cipher, session.algorithm, self.encryption_key(session, handle)
        nonces = entry.nonce, session.nonce_tpm
        return sessions.first_decrypted(*given, *nonces, command.parameters, self.block_cipher)

    # Responses, which are encoded after the command's effect.

    def success(self, command: Command, answer: Answer, random: bytes) -> bytes:
        if command.entries is None:
            return frames.success(answer.parameters, handle=answer.handle)
        self.draw_nonces(command, random[answer.drawn :])
        parameters = self.answered_parameters(command, answer.parameters)
        places = command.places
        entries = [self.entry_answer(command, parameters, entry, of) for _, entry, of in places]
        for _, entry, handle in places:
            self.end_use(entry, handle)
        return frames.success(parameters, entries, answer.handle)

    def end_use(self, entry: Entry, handle: int | None) -> None:
        """Ends the entry's session, or restarts its policy if the session authorized the handle,
        since a policy is valid for one authorization.
        """
        if entry.handle == RS_PW:
            return
        if not entry.attributes & frames.CONTINUE_SESSION:
            del self.sessions[entry.handle]
        elif handle is not None:
            session = self.sessions[entry.handle]
            session.policy = policy_state.starting_state(session.algorithm)

    def draw_nonces(self, command: Command, random: bytes) -> None:
        for _, entry, _ in command.places:
            if entry.handle != RS_PW:
                session = self.sessions[entry.handle]
                size = len(session.nonce_tpm)
                session.nonce_tpm, random = random[:size], random[size:]

    def answered_parameters(self, command: Command, parameters: bytes) -> bytes:
        found = command.with_attribute(ENCRYPT)
        if not found:
            return parameters
        _, entry, handle = found
        session = self.sessions[entry.handle]
        given = session.cipher, session.algorithm, self.encryption_key(session, handle)
        nonces = session.nonce_tpm, entry.nonce
        return sessions.first_encrypted(*given, *nonces, parameters, self.block_cipher)

    def entry_answer(
        self, command: Command, parameters: bytes, entry: Entry, handle: int | None
    ) -> bytes:
        if entry.handle == RS_PW:
            return frames.entry_answer()
        session = self.sessions[entry.handle]
        hmac = b""
        # An empty hmac is accepted if its key is empty. The response to it, and the response to a
        # password, have an empty hmac.
        if entry.hmac and entry.demand != policy.PASSWORD:
            answered = sessions.response_hash(session.algorithm, command.code, parameters)
            given = session.algorithm, self.key(entry, handle), answered, session.nonce_tpm
            hmac = sessions.entry_hmac(*given, entry.nonce, [], entry.attributes)
        return frames.entry_answer(session.nonce_tpm, entry.attributes, hmac)

    # The commands. Each parses its parameters, makes its own checks, and then changes the device.

    @takes(integer(2))
    def get_random(self, request: Request, wanted: int) -> Answer:
        count = min(wanted, RANDOM_AT_ONCE)
        return Answer(sized(request.random[:count]), drawn=count)

    @takes(buffer(MOST_STIRRED))
    def stir_random(self, request: Request, stirred: bytes) -> Answer:
        # The random bytes of each command come from the host alone.
        return Answer()

    @takes(buffer())
    def hierarchy_change_auth(self, request: Request, new: bytes) -> Answer:
        self.auth_values[request.handles[0]] = trimmed(new)
        return Answer()

    @takes(integer(4))
    def flush_context(self, request: Request, handle: int) -> Answer:
        kind = handle_kinds.first_byte(handle)
        if kind not in (frames.HMAC_SESSION, frames.POLICY_SESSION, frames.TRANSIENT):
            raise Refusal("VALUE/p1", "A1")
        held = self.objects.keys() if kind == TRANSIENT else self.sessions.keys()
        if handle not in held:
            raise Refusal("HANDLE/p1", "A2")
        self.objects.pop(handle, None)
        self.sessions.pop(handle, None)
        return Answer()

    @takes(buffer(), buffer(), choice(1, HANDLE_KINDS), Parameters.symmetric, Parameters.hash)
    def start_auth_session(
        self,
        request: Request,
        nonce_caller: bytes,
        salt: bytes,
        kind: int,
        symmetric: tuple[int, int | None],
        algorithm: int,
    ) -> Answer:
        cipher, mask_algorithm = symmetric
        size = len(nonce_caller)
        most = digest_bytes(algorithm)
        if not LEAST_NONCE <= size <= most:
            case = "short" if size < LEAST_NONCE else "long"
            raise Refusal("SIZE/p1", "A1", case=case, size=size, least=LEAST_NONCE, most=most)
        if salt:
            raise Refusal("VALUE/p2", "A2", size=len(salt))
        if mask_algorithm not in (None, algorithm):
            raise Refusal("HASH/p4", "A3", mask=mask_algorithm)
        taken = [it & PLACE_BITS for it in self.sessions]
        free = [it for it in range(SESSIONS) if it not in taken]
        if not free:
            raise Refusal("SESSION_MEMORY", "A4", held=len(taken), most=SESSIONS)

        _, bind = request.handles
        nonce_tpm, key, bind_auth = request.random[:size], b"", self.auth_value(bind)
        if bind != RH_NULL:
            key = sessions.session_key(algorithm, bind_auth, nonce_tpm, nonce_caller)
        handle = HANDLE_KINDS[kind] << 24 | free[0]
        told = policy_state.starting_state(algorithm)
        bound = self.name(bind), bind_auth, self.protection(bind)
        kept = kind, algorithm, cipher, nonce_tpm, key
        others = told, mask_algorithm, bind != RH_NULL
        self.sessions[handle] = Session(*kept, *bound, *others)
        return Answer(sized(nonce_tpm), number(handle, 4), drawn=size)


# The row of each command is the method with the command's name.
ROWS: dict[CC, Callable[[Model, Request], Answer]] = {
    it: getattr(Model, it.method_name) for it in CC
}
