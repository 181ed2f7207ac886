"""A caller of a device, which sends commands and learns from each response."""

import contextlib
import secrets
from typing import Any, Callable, Protocol

from tpmsim.caller.calls import Calls, RESPONSES
from tpmsim.caller.entries import Made, Means, Prepared, Refused, Response, Session, Use
from tpmsim.caller.knowledge import CLEAR, NONCE_BYTES
from tpmsim.caller.prepared_commands import PreparedCommands
from tpmsim.policies.policy_file import policy_of, Step, steps_of
from tpmsim.standard import ALG_NULL, CC, given, nv, objects, policy, RH_NULL, RH_OWNER, SE_HMAC
from tpmsim.standard import SE_POLICY, SE_TRIAL, SHA256, trimmed, XOR
from tpmsim.standard.values import Cipher


# The warnings YIELDED, TESTING and RETRY: the TPM has not executed the command, and may accept it if
# it is sent again.
AGAIN = 0x908, 0x90A, 0x922


class Answered(Protocol):
    """The bytes of a response, and the check in its trace, if the device reports it."""

    @property
    def response(self) -> bytes:
        """The bytes of the response."""
        ...

    @property
    def check(self) -> str | None:
        """`ok`, the check that refused the command, or None if it is unknown."""
        ...


class Executes(Protocol):
    """The part of a device that a caller needs."""

    def execute(self, buffer: bytes) -> Answered:
        """Returns the response to a command."""


class Caller(Calls, PreparedCommands):
    """Sends commands to a device. `nonce(size)` returns a nonce of this size."""

    def __init__(
        self, device: Executes, nonce: Callable[[int], bytes] = secrets.token_bytes
    ) -> None:
        super().__init__(nonce)
        self.device = device

    def send(self, prepared: Prepared) -> Response:
        """Sends a command and returns the response. Raises Refused if the device refuses the
        command, and WrongResponse if no device with the session's key would send this response.
        """
        answered = self.device.execute(prepared.buffer())
        code = int.from_bytes(answered.response[6:10], "big")
        if code:
            raise Refused(prepared, code, answered.check)
        return RESPONSES[prepared.code](prepared.code, *self.received(prepared, answered.response))

    def start_up(self, kind: int = CLEAR) -> None:
        """Sends TPM2_Startup; `kind` is CLEAR or STATE."""
        self.send(self.starting(kind))

    def session(
        self,
        bind: int | str = RH_NULL,
        *uses: Means,
        kind: int = SE_HMAC,
        algorithm: int | str = SHA256,
        cipher: int | str = ALG_NULL,
        size: int = NONCE_BYTES,
    ) -> Session:
        """Starts a session. To encrypt parameters in it, set `cipher` to AES or XOR; `size` is the
        size of its nonces, in bytes. The entity, the algorithm and the cipher may be words, such as
        `OWNER`, `sha256` and `aes`.
        """
        bound, hashing = given.handle("bind", bind), given.algorithm(algorithm)
        nonce, encrypting = self.nonce(size), given.cipher(cipher)
        symmetric = Cipher(encrypting, hashing if encrypting == XOR else None)
        parameters = nonce, b"", kind, symmetric, hashing
        response = self.send(self.asked(CC.StartAuthSession, [RH_NULL, bound], uses, *parameters))
        answer = response.handle, response.parameters
        return self.started(answer, nonce, bound, hashing, kind, encrypting)

    def trial(self, algorithm: int | str = SHA256) -> Session:
        """Starts a trial session, which computes a policy's digest."""
        return self.session(kind=SE_TRIAL, algorithm=algorithm)

    def policy(self, words: str, algorithm: int | str = SHA256, **choices: Any) -> Use:
        """Starts a policy session, executes the commands of a policy in words (docs/EXPLAIN.md) in
        it, and returns the session, ready for use in a command. Tries the branches of an `either`
        in order until the device accepts one. If the device refuses them all, flushes the session
        and raises Refused.
        """
        session = self.session(kind=SE_POLICY, algorithm=algorithm, **choices)
        try:
            return self.tell(session, words)
        except Refused:
            with contextlib.suppress(Refused):  # the session may be gone
                self.send(self.flush(session.handle))
            raise

    def tell(self, session: Session, words: str) -> Use:
        """Executes the commands of a policy in words in a session, and returns a use of the
        session.
        """
        use = Use(session)
        for step in steps_of(policy_of(words), session.algorithm):
            self.tell_step(use, step)
        return use

    def tell_step(self, use: Use, step: Step) -> None:
        """Sends the command of one assertion. For an `either`, tries its branches."""
        session = use.session
        if step.branches:
            self.tell_branch(use, step)
        elif step.code in (CC.PolicySecret, CC.PolicyNV):
            # A Name that this caller has not learned belongs to an entity whose Name is its handle.
            known = [handle for handle, name in self.names.items() if name == step.name]
            those = [*(known or [int.from_bytes(step.name, "big")])[:1], session.handle]
            if step.code == CC.PolicyNV:
                those.insert(0, those[0])
            self.send(self.prepare(step.code, those, step.parameters, *self.by((), those[0])))
        else:
            self.send(self.told(step.code, session, step.parameters))
        demands = {CC.PolicyAuthValue: policy.AUTH_VALUE, CC.PolicyPassword: policy.PASSWORD}
        use.demand = demands.get(step.code, use.demand)

    def tell_branch(self, use: Use, step: Step) -> None:
        """Executes the first branch that the device accepts. If it accepts none, raises the refusal
        of the last branch. A warning that only asks for the same command again is raised at once.
        """
        refused: Refused | None = None
        for branch in step.branches:
            try:
                for it in branch:
                    self.tell_step(use, it)
                self.send(self.told(CC.PolicyOR, use.session, step.parameters))
                return
            except Refused as fault:
                if fault.number in AGAIN:
                    raise
                refused, use.demand = fault, None
                self.send(self.restart(use.session))
        assert refused is not None
        raise refused

    def create_primary(
        self, public: objects.Public, *uses: Means, hierarchy: int = RH_OWNER, **more: Any
    ) -> int:
        """Creates a primary object and returns its handle. Optional arguments: `user_auth`, `data`,
        `outside_info` and `pcrs`.
        """
        handle = self.send(self.primary(hierarchy, public, *uses, **more)).handle
        assert handle is not None
        return handle

    def create(
        self, parent: int, public: objects.Public, *uses: Means, user_auth: bytes = b"", **more: Any
    ) -> Made:
        """Creates an object below a parent, for `load` to load. Optional arguments: `data`,
        `outside_info` and `pcrs`.
        """
        response = self.send(self.child(parent, public, *uses, user_auth=user_auth, **more))
        area = objects.Public.read(response["outPublic"])
        return Made(response["outPrivate"], area, trimmed(user_auth))

    def load(self, parent: int, made: Made, *uses: Means) -> int:
        """Loads an object below the parent that created it, and returns its handle."""
        handle = self.send(self.loading(parent, made, *uses)).handle
        assert handle is not None
        self.auth_values[handle] = made.auth_value
        return handle

    def define(self, public: nv.Public, *uses: Means, auth: bytes = b"", by: int = RH_OWNER) -> int:
        """Defines an index with the authorization value `auth`, and returns its handle."""
        self.send(self.defining(public, *uses, auth=auth, by=by))
        return public.index
