"""Scripts with commands that are first refused and then succeed. After each refusal, other commands
read the state of the device, which must not have changed.
"""

import copy
from collections.abc import Callable, Iterable, Iterator

from tpmsim.caller import Prepared
from tpmsim.model.capability import HANDLES, LOCKOUT_COUNTER, PROPERTIES
from tpmsim.standard import CC, frames, handle_kinds, HandleKind, HMAC_SESSION, NV, PERSISTENT
from tpmsim.standard import RH_OWNER, SHA1, SHA256, TRANSIENT
from tpmsim.standard.nv import Attribute
from tests.common.examples import Example, examples, ScriptScene
from tests.common.script import Script, SUCCESS, told_head
from tests.common.script_caller import ScriptCaller

# A function that takes the outcome of an example and its buffer, and makes rows of altered buffers:
# a description, an outcome, and the buffers that must have this outcome.
Rows = Callable[[str, bytes], Iterable[tuple[str, str, list[bytes]]]]

AS_BYTES = (
    "All commands are in bytes, whole ones too, for comparison with the others; only those "
    "that look are in words."
)

# The PCRs that the commands change. The response of TPM2_PCR_Read also contains the update counter,
# which each change of a PCR increments.
PCRS = [(SHA1, (10, 16)), (SHA256, (10, 16))]


def kind_changed(code: CC) -> int:
    """Returns the first byte of the handles that a command may add or remove."""
    if code.name.startswith("NV_"):
        return NV
    if code in (CC.EvictControl, CC.Clear, CC.Startup):
        return PERSISTENT
    is_on_object = any(it.kind == HandleKind.OBJECT for it in code.handles + code.answered_handles)
    return TRANSIENT if is_on_object else HMAC_SESSION


class LookingScript(Script):
    """A script that reads the PCRs and the handles of one kind after each row of refusals. After
    the last refusal of a command, the script reads all state that commands can read. `name` is the
    name of its program's module, and `told` the program's docstring.
    """

    def __init__(self, name: str, told: str) -> None:
        super().__init__(
            name,
            f"{told_head(told)} After each refusal, or a row of equal ones, TPM2_PCR_Read of PCRs "
            "10 and 16, which answers the update counter too, and TPM2_GetCapability of the "
            "handles of one kind show that nothing changed. After the last one of a command all "
            "that look do so: at the handles of each kind, at the failed tries, at the clock, at "
            "the digest of a policy session, and at the NV indices.",
        )
        self.write_comment(AS_BYTES)
        self.tpm = ScriptCaller(self)
        self.scene = ScriptScene(self.tpm, object_auth=b"abc")
        self.seen, self.probe = dict[bytes, bytes](), self.device

    def at_some(self, *kinds: int) -> Iterator[Prepared]:
        """Yields commands that read the PCRs, and the handles of these kinds."""
        yield self.tpm.command("PCR_Read", pcrSelectionIn=PCRS)
        for kind in kinds:
            yield self.tpm.capability(HANDLES, kind << 24, 64)

    def at_all(self, kind: int) -> Iterator[Prepared]:
        """Yields all commands that read the state of the device. They read the NV indices only if a
        command that changes handles of this kind may change them.
        """
        yield from self.at_some(NV, HMAC_SESSION, TRANSIENT, PERSISTENT)
        # The properties are the number of failed tries, maxTries, recoveryTime and lockoutRecovery.
        yield self.tpm.capability(PROPERTIES, LOCKOUT_COUNTER, 4)
        yield self.tpm.clock()
        for handle in filter(handle_kinds.is_policy, self.device.sessions):
            yield self.tpm.command("PolicyGetDigest", handle)
        for index, held in self.device.indices.items() if kind in (NV, PERSISTENT) else ():
            yield self.tpm.index_public(index)
            is_open = held.public.has(Attribute.WRITTEN) and held.public.has(Attribute.OWNERREAD)
            if is_open and not held.public.has(Attribute.READLOCKED):
                yield self.tpm.reading(index, held.public.data_size, by=RH_OWNER)

    def look(self, what: str, looks: Iterable[Prepared]) -> None:
        """Sends commands that read the state. Their responses must be the same as after the last
        unaltered command.
        """
        outcome = SUCCESS if self.device.started else "INITIALIZE"
        number = "" if outcome == SUCCESS else f" ({frames.code_of(outcome):03X})"
        self.write_comment(f"{what}: {outcome}{number}.")
        for prepared in looks:
            buffer = prepared.buffer()
            answer = self.command(outcome, buffer)
            if self.seen.setdefault(buffer, answer) != answer:
                raise ValueError(f"a refusal changed what {buffer.hex()} sees")

    def outcome_now(self, buffer: bytes) -> str:
        """Returns the outcome that a command would have now, by executing it on a copy of the
        device.
        """
        refused = self.probe.execute(buffer, self.locality, self.random).refused
        if refused is None or refused.startswith("AUTH_FAIL"):
            self.probe = copy.deepcopy(self.device)
        return refused or SUCCESS

    def refuses_each(self, rows: Rows) -> None:
        """Sends each example after a power cycle. Before each example, sends the rows of buffers
        that are made from it, all of which must be refused.
        """
        self.startup()
        self.scene.define_indices()
        for example in examples():
            self.power()
            self.startup()
            self.refuses(example, rows)

    def refuses(self, example: Example, rows: Rows) -> None:
        """Sends rows of buffers that must be refused, and then the unaltered command."""
        prepared = example.make(self.scene)
        whole, kind = prepared.buffer(), kind_changed(prepared.code)
        self.seen, self.probe = {}, copy.deepcopy(self.device)
        self.lines.append("")
        name = f"TPM2_{prepared.code.name}. {example.name}"
        self.look(f"{name}. What is seen before it", self.at_all(kind))
        for what, outcome, buffers in rows(example.outcome, whole):
            self.command(f"{what}: {outcome}", *buffers, as_bytes=True)
            self.look("As before", self.at_some(kind))
        self.look("All as before", self.at_all(kind))
        response = self.command(f"Whole: {example.outcome}", whole, as_bytes=True)
        if example.outcome == SUCCESS:
            self.tpm.received(prepared, response)
        else:
            self.look("All as before", self.at_all(kind))
