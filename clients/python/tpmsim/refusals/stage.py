"""A device on which a command is about to be refused: it is started, and has the indices that the
example of the command needs.
"""

from tpmsim.caller.caller import Caller
from tpmsim.caller.entries import Prepared, Refused, Session, wrong
from tpmsim.caller.examples import COMPLETE_EXAMPLES, EXAMPLES, Scene
from tpmsim.caller.templates import area, BY_OWNER, BY_VALUE
from tpmsim.device.told import ModelDevice, RANDOM_BYTES
from tpmsim.model.machine import MANUFACTURED, Model
from tpmsim.standard import CC, Fact, HandleKind, Profile
from tpmsim.standard.aes_tables import encrypt_block
from tpmsim.standard.nv import Attribute

# The commands with these handles use an NV index.
OF_INDICES = HandleKind.NV_AUTH, HandleKind.NV_INDEX

# An index whose authorization value is protected, the value, and the failed tries that lock it out.
PIN, PIN_VALUE, MOST_TRIES = 0x0100_0010, b"pin", 3


class PlainDevice(ModelDevice):
    """A device that draws zeros, as the device of a script without `entropy` does."""

    def __init__(self, profile: Profile = Profile.SYMMETRIC) -> None:
        super().__init__(Model(MANUFACTURED, encrypt_block, profile))

    def drawn(self) -> bytes:
        return bytes(RANDOM_BYTES)


class Stage(Scene):
    """A scene for one command, in which the nonces of the caller are zeros too."""

    def __init__(self, command: CC) -> None:
        is_complete = command.has(Fact.COMPLETE_ONLY)
        profile = Profile.COMPLETE if is_complete else Profile.SYMMETRIC
        self.command, self.device = command, PlainDevice(profile)
        super().__init__(Caller(self.device, bytes), self.device.power_cycle)
        if command == CC.Startup:
            return
        self.tpm.start_up()
        if any(it.kind in OF_INDICES for it in command.handles):
            self.define_indices()

    def example(self) -> Prepared:
        """Returns the example of the command, which the device would accept."""
        return (EXAMPLES | COMPLETE_EXAMPLES)[self.command](self)

    def pin(self) -> int:
        """Defines an index with a protected authorization value."""
        self.tpm.define(area(PIN, BY_VALUE | BY_OWNER), auth=PIN_VALUE)
        return PIN

    def sends_wrong(self, prepared: Prepared) -> None:
        """Sends a command with a wrong authorization value."""
        try:
            self.tpm.send(wrong(prepared))
        except Refused:
            return
        raise AssertionError(f"{prepared.code.name} is accepted")

    def lock_out(self) -> None:
        """Locks out everything that is protected, by failed tries."""
        for _ in range(MOST_TRIES):
            self.sends_wrong(self.tpm.reading(PIN, 1))

    def bound(self) -> Session:
        """Starts a session that is bound to the protected index."""
        return self.tpm.session(bind=self.pin())

    def gate(self) -> int:
        """Defines an index that only a policy authorizes."""
        attributes = Attribute.POLICYREAD | Attribute.POLICYWRITE | BY_OWNER
        return self.tpm.define(area(PIN, attributes, auth_policy=bytes(range(32))))
