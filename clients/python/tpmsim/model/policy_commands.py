"""The policy assertions (TPM 2.0 Library, Part 3, section 23). In a trial session an assertion may
be false.
"""

from tpmsim.model import nv_commands, policy_state
from tpmsim.model.general import Answer, Refusal
from tpmsim.model.parameters import buffer, choice, Held, integer, Parameters, Request, Selection
from tpmsim.model.parameters import takes
from tpmsim.model.policy_state import Session, State
from tpmsim.standard import digest, digest_bytes, frames, number, policy, sized


class Commands(Held):
    """The policy commands, for a device with `sessions`, PCRs, and `indices`."""

    def told_to(self, request: Request) -> tuple[Session, State, int]:
        session = self.sessions[request.handles[-1]]
        return session, session.policy, session.algorithm

    @takes()
    def policy_restart(self, request: Request) -> Answer:
        session = self.sessions[request.handles[0]]
        session.policy = policy_state.starting_state(session.algorithm)
        return Answer()

    @takes(buffer(), Parameters.selection)
    def policy_pcr(self, request: Request, given: bytes, selection: Selection) -> Answer:
        session, told, algorithm = self.told_to(request)
        values_digest = digest(algorithm, self.values(selection))
        if not session.is_trial and told.update_counter not in (None, self.update_counter):
            raise Refusal("PCR_CHANGED", "A1", told=told.update_counter, now=self.update_counter)
        if not session.is_trial and given not in (b"", values_digest):
            raise Refusal("VALUE/p1", "A2", wanted=values_digest)
        about = frames.selection(*selection), given or values_digest
        told.digest = policy.after_pcr(algorithm, told.digest, *about)
        told.update_counter = self.update_counter
        return Answer()

    @takes(lambda it: it.sized_list(policy.LEAST_BRANCHES, policy.MOST_BRANCHES))
    def policy_or(self, request: Request, branches: list[bytes]) -> Answer:
        session, told, algorithm = self.told_to(request)
        if not session.is_trial and told.digest not in branches:
            raise Refusal("VALUE/p1", "A1", told=told.digest)
        told.digest = policy.after_or(algorithm, branches)
        return Answer()

    def demanding(self, request: Request, demand: str) -> Answer:
        """Sets what the policy demands in the entry that uses the session; only the last demand
        counts.
        """
        _, told, algorithm = self.told_to(request)
        told.digest = policy.after_auth_value(algorithm, told.digest)
        told.demand = demand
        return Answer()

    @takes()
    def policy_auth_value(self, request: Request) -> Answer:
        return self.demanding(request, policy.AUTH_VALUE)

    @takes()
    def policy_password(self, request: Request) -> Answer:
        return self.demanding(request, policy.PASSWORD)

    @takes(integer(4))
    def policy_command_code(self, request: Request, code: int) -> Answer:
        _, told, algorithm = self.told_to(request)
        if told.code not in (None, code):
            raise Refusal("VALUE/p1", "A1", told=told.code)
        if code not in self.profile.commands:
            raise Refusal("POLICY_CC/p1", "A2")
        told.digest = policy.after_command_code(algorithm, told.digest, code)
        told.code = code
        return Answer()

    @takes(buffer())
    def policy_cp_hash(self, request: Request, cp_hash: bytes) -> Answer:
        session, told, algorithm = self.told_to(request)
        if len(cp_hash) != digest_bytes(algorithm):
            raise Refusal("SIZE/p1", "A1", size=len(cp_hash), wanted=digest_bytes(algorithm))
        if told.cp_hash not in (None, cp_hash):
            raise Refusal("CPHASH", "A2", told=told.cp_hash)
        told.digest = policy.after_cp_hash(algorithm, told.digest, cp_hash)
        told.cp_hash = cp_hash
        return Answer()

    @takes(choice(1, (0, 1)))
    def policy_nv_written(self, request: Request, is_written: int) -> Answer:
        is_written = bool(is_written)
        _, told, algorithm = self.told_to(request)
        if told.nv_written not in (None, is_written):
            raise Refusal("VALUE/p1", "A1", told=int(not is_written))
        told.digest = policy.after_nv_written(algorithm, told.digest, is_written)
        told.nv_written = is_written
        return Answer()

    @takes(integer(1))
    def policy_locality(self, request: Request, localities: int) -> Answer:
        """The parameter has a bit for each locality; the event's own locality does not matter."""
        _, told, algorithm = self.told_to(request)
        if localities > policy.ALL_LOCALITIES or not localities & told.localities:
            known = localities <= policy.ALL_LOCALITIES
            case = "none" if not localities else "common" if known else "known"
            raise Refusal("RANGE/p1", "A1", case=case, left=told.localities)
        told.digest = policy.after_locality(algorithm, told.digest, localities)
        told.localities &= localities
        return Answer()

    @takes(buffer(), buffer(), buffer(), integer(4))
    def policy_secret(
        self, request: Request, nonce_tpm: bytes, cp_hash: bytes, policy_ref: bytes, expiration: int
    ) -> Answer:
        session, told, algorithm = self.told_to(request)
        if expiration:
            raise Refusal("VALUE/p4", "A1")
        if len(cp_hash) not in (0, digest_bytes(algorithm)):
            raise Refusal("SIZE/p2", "A2", size=len(cp_hash), wanted=digest_bytes(algorithm))
        if not session.is_trial and nonce_tpm not in (b"", session.nonce_tpm):
            raise Refusal("NONCE/p1", "A3", wanted=session.nonce_tpm)
        other = cp_hash and told.cp_hash not in (None, cp_hash)
        if not session.is_trial and other:
            raise Refusal("CPHASH", "A4", told=told.cp_hash)
        name = self.name(request.handles[0])
        told.digest = policy.after_secret(algorithm, told.digest, name, policy_ref)
        told.cp_hash = cp_hash or told.cp_hash
        # Nothing expires, so there is no timeout.
        return Answer(sized(b"") + frames.NULL_TICKET)

    @takes(buffer(), integer(2), choice(2, range(len(nv_commands.OPERATIONS))))
    def policy_nv(self, request: Request, operand: bytes, offset: int, operation: int) -> Answer:
        session, told, algorithm = self.told_to(request)
        asker, handle, _ = request.handles
        index = self.indices[handle]
        if not session.is_trial:
            nv_commands.check_comparison(index, asker, operand, offset, operation)
        arguments = operand + number(offset, 2) + number(operation, 2)
        told.digest = policy.after_nv(algorithm, told.digest, arguments, index.public.name)
        return Answer()

    @takes()
    def policy_get_digest(self, request: Request) -> Answer:
        return Answer(sized(self.sessions[request.handles[0]].policy.digest))
