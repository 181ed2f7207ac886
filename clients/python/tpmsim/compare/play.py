"""Plays a script on both TPMs, and reports where they differ."""

from dataclasses import dataclass, field, replace

from tpmsim import records
from tpmsim.caller.entries import Prepared
from tpmsim.compare.contexts import loads
from tpmsim.compare.differences import between, code_word, Difference
from tpmsim.compare.reference import parsed, Received, Reference
from tpmsim.compare.translation import NotComparable, Translation
from tpmsim.device import FileDevice, SimulatorDevice, Transport, Unsupported
from tpmsim.device.base import Executed
from tpmsim.device.told import MOST_MILLISECONDS
from tpmsim.model.general import Command
from tpmsim.model.player import BadLine
from tpmsim.standard import CC, COMMAND_BYTES, CONTINUE_SESSION, Entry, frames, HEADER_BYTES
from tpmsim.standard import is_policy, is_session, NV, PERSISTENT, POLICY_SESSION, SHA1
from tpmsim.standard import SHA256, TRANSIENT
from tpmsim.standard.command_names import command_name
from tpmsim.standard.values import read_all

# What a command changes, if it changes something that has no handle. A later difference may follow
# from such a change.
GUESSES = "guesses"
ALL = "all"
CHANGES = {
    CC.Clear: ALL,
    CC.Startup: ALL,
    CC.Shutdown: ALL,
    CC.HierarchyChangeAuth: ALL,
    CC.ClearControl: "clear",
    CC.DictionaryAttackLockReset: GUESSES,
    CC.DictionaryAttackParameters: GUESSES,
}
OF_GUESSES = {"AUTH_FAIL", "LOCKOUT", "BAD_AUTH"}
LEAST_WAIT = 1000

# Changes of PCRs are visible in the PCR values and in a PCR policy. NV indices, policy sessions and
# objects are identified by their handles.
COUNTER, PCR_COMMANDS = "pcrUpdateCounter", (CC.PolicyPCR,)
OWN_KINDS = NV, POLICY_SESSION, TRANSIENT, PERSISTENT

# The state read at the end: the PCRs, four at a time since a response has at most eight digests;
# the handles of NV indices, sessions, and transient and persistent objects; and the dictionary
# attack properties.
READS = [
    *(
        frames.command(CC.PCR_Read, frames.selection((SHA1, four), (SHA256, four)))
        for four in (range(it, it + 4) for it in range(0, 24, 4))
    ),
    *(
        frames.command(CC.GetCapability, b"".join(frames.number(it, 4) for it in (*asked, 16)))
        for asked in ((1, 0x0100_0000), (1, 0x0200_0000), (1, 0x8000_0000), (1, 0x8100_0000))
    ),
    frames.command(CC.GetCapability, b"".join(frames.number(it, 4) for it in (6, 0x20E, 4))),
]


@dataclass
class Report:
    """The number of commands in a script, the differences, and what cannot be compared, with the
    line of each.
    """

    commands: int = 0
    differences: list[Difference] = field(default_factory=list)
    not_comparable: list[tuple[int, str, int]] = field(default_factory=list)


class Comparison:
    """Plays a script on this device and on another TPM, which first expects TPM2_Startup."""

    def __init__(self, other: Transport) -> None:
        self.other, self.here, self.report = other, Reference(), Report()
        self.translation = Translation(self.here)
        self.now = records.Command(0, b"", b"", 0, 0, b"")
        self.causes: dict[object, int] = {}
        self.line, self.locality, self.waited = 0, 0, 0

    def play(self, script: bytes) -> Report:
        """Plays a script. Raises BadLine for a bad line, and ValueError if a log begins with state
        that a new TPM does not have.
        """
        is_begun = False
        for step in records.steps_of(script):
            self.line = step.line
            if isinstance(step, records.Bad):
                raise BadLine(f"line {step.line}")
            if isinstance(step, records.Begin):
                self.begin(step, is_begun)
            elif isinstance(step, records.Power):
                self.power()
            elif isinstance(step, records.Command):
                self.now, self.waited = step, self.waited + step.elapsed
                self.command(step.buffer)
            is_begun = is_begun or not isinstance(step, records.Comment)
        self.state()
        return self.report

    def begin(self, step: records.Begin, is_begun: bool) -> None:
        """Reads a head, which must belong to a new device, or again to the same device. A state
        text of the same device changes nothing.
        """
        if is_begun and self.here.is_device_of(step):
            if not records.is_state_text(step.content):
                self.power()
        elif is_begun and records.is_cycled(self.here.model, step.content):
            self.power()
            self.here.is_device_of(step)
        elif is_begun or not self.here.open_empty(step):
            raise ValueError(f"line {self.line} begins with a device that no other TPM can be made")

    def send(self, buffer: bytes) -> bytes:
        """Sends a command after the waiting time in the script. If the other TPM runs on the host's
        time, only this device forgives failed tries.
        """
        waited, self.waited = min(self.waited, MOST_MILLISECONDS), 0
        try:
            if waited:
                self.other.wait(waited)
        except Unsupported:
            if waited >= LEAST_WAIT:
                self.causes.setdefault(GUESSES, self.line)
        return self.other.execute(buffer).response

    def power(self) -> None:
        self.here.power_cycle()
        self.other.power_cycle()
        self.translation.power_cycle()

    def command(self, buffer: bytes) -> None:
        self.report.commands += 1
        asked = parsed(buffer)
        try:
            prepared = self.translation.command(buffer)
            if self.now.locality != self.locality:
                self.other.locality = self.locality = self.now.locality
            sent = prepared.buffer() if isinstance(prepared, Prepared) else prepared
            if not self.can_be_sent(sent):
                raise Unsupported("the channel there ends a command by the size that it says")
        except NotComparable as why:
            self.skip(asked, self.execute(buffer), why.words, why.line)
            return
        except Unsupported as why:
            self.skip(asked, self.execute(buffer), str(why), self.line)
            return
        is_made_elsewhere = asked is not None and self.translation.is_made_elsewhere(asked)
        response = self.send(sent)
        session = self.here.encrypting(asked) if asked else None
        event = self.execute(buffer)
        is_done, here = not any(event.response[6:10]), Received()
        if is_done and is_made_elsewhere and any(response[6:10]):
            self.skip(asked, event, "a private area that was not answered", self.line)
            return
        if is_done and asked:
            here = self.here.received(asked, event.response, session)
        self.compare(asked, prepared, here, event, response)

    def skip(self, asked: Command | None, event: Executed, words: str, line: int) -> None:
        self.report.not_comparable.append((self.line, words, line))
        self.lose(asked, event, line)

    def can_be_sent(self, buffer: bytes) -> bool:
        """Whether a buffer can be sent. In a stream, only a command's size field shows where the
        command ends. Microsoft's protocol and files mark the end in another way.
        """
        if isinstance(self.other, (FileDevice, SimulatorDevice)):
            return True
        return HEADER_BYTES <= len(buffer) == int.from_bytes(buffer[2:6], "big") <= COMMAND_BYTES

    def execute(self, buffer: bytes) -> Executed:
        now, self.now = self.now, replace(self.now, elapsed=0)
        return self.here.execute(replace(now, buffer=buffer))

    def compare(
        self,
        asked: Command | None,
        prepared: Prepared | bytes,
        here: Received,
        event: Executed,
        response: bytes,
    ) -> None:
        codes = [int.from_bytes(it[6:10], "big") for it in (event.response, response)]
        name = command_name(int.from_bytes(event.buffer[6:10], "big")) or "?"
        if codes[0] != codes[1]:
            self.differ(name, asked, "code", *map(code_word, codes))
        if asked is None:
            self.note_session(name, not codes[0], not codes[1], response)
            self.note_context(event, response)
            return
        if isinstance(prepared, bytes):
            return
        there = self.translation.received(prepared, response) if not codes[1] else None
        if there and not codes[0]:
            for what, *both in between(here.fields, there.fields):
                self.differ(name, asked, what, *both)
            if there.wrong:
                self.differ(name, asked, "hmac", "right", there.wrong)
            self.translation.note_both(asked, prepared, here, there, self.line)
        elif not codes[0]:
            self.lose(asked, event, self.line)
        elif there:
            # If the entity exists only on the other TPM, and one command can remove it there, sends
            # that command.
            self.flush(there.handle)
            if asked.code == CC.NV_DefineSpace:
                self.other.execute(self.translation.undefining(there))

    def note_session(self, name: str, is_here: bool, is_there: bool, response: bytes) -> None:
        """Notes the new nonce or the end of the HMAC session in a command on sequences. `is_here`
        and `is_there` say which device accepted the command.
        """
        sent = self.translation.contexts.sent
        if sent is None:
            return
        if is_there and not sent.received(response):
            self.differ(name, None, "hmac", "right", "wrong")
        if sent.ends and is_here:
            self.translation.sessions.pop(self.translation.handles.pop(sent.here, 0), None)
            if not is_there:
                self.flush(sent.session.handle)

    def note_context(self, event: Executed, response: bytes) -> None:
        """Notes the context that a command saved or loaded, if any."""
        contexts = self.translation.contexts
        is_here, is_there = (not any(it[6:10]) for it in (event.response, response))
        if is_here and is_there:
            contexts.note(event.buffer, event.response, response)
        elif is_here:
            contexts.lose(event.buffer, event.response, self.line)
        elif is_there and loads(event.buffer):
            # Removes what this command loaded only on the other TPM.
            self.flush(int.from_bytes(response[10:14], "big"))

    def differ(self, name: str, asked: Command | None, what: str, here: str, there: str) -> None:
        touched = self.touched(asked, what)
        if {here.split("/")[0], there.split("/")[0]} & OF_GUESSES:
            touched.append(GUESSES)
        causes = [self.causes[it] for it in touched if it in self.causes]
        follows = min(causes) if causes else None
        self.report.differences.append(Difference(self.line, name, what, here, there, follows))
        is_other = "success" in (here, there) or what != "code"
        if asked and asked.code in (CC.PCR_Extend, CC.PCR_Event, CC.PCR_Reset):
            touched.append("pcrs")
        for it in touched if is_other else []:
            if it != ALL or asked and CHANGES.get(asked.code) == ALL:
                self.causes.setdefault(it, self.line)

    def touched(self, asked: Command | None, what: str) -> list[object]:
        """Returns what a command reads or changes, so that its difference can be traced to an
        earlier one.
        """
        if asked is None:
            return []
        if what == COUNTER:
            return [COUNTER, ALL]
        entries = [entry.handle for _, entry, _ in asked.places]
        touched: list[object] = [it for it in asked.handles + entries if it >> 24 in OWN_KINDS]
        if asked.code in PCR_COMMANDS or what == "pcrValues":
            touched.append("pcrs")
        if asked.code in CHANGES:
            touched.append(CHANGES[asked.code])
        return [*touched, ALL]

    def lose(self, asked: Command | None, event: Executed, line: int) -> None:
        """Notes what a command did only on this device: which entities it returned or made, and
        which sessions it ended.
        """
        if any(event.response[6:10]):
            return
        if asked is None:
            self.translation.contexts.lose(event.buffer, event.response, line)
            return
        lost = self.translation.lost
        if asked.code.answers_handle:
            lost[int.from_bytes(event.response[10:14], "big")] = line
        elif asked.code == CC.NV_DefineSpace:
            lost.update({it: line for it in self.here.model.indices if it not in self.known()})
        elif asked.code == CC.EvictControl:
            kept = [it for it in self.here.model.objects if it >> 24 == PERSISTENT]
            lost.update({it: line for it in kept if it not in self.known()})
        if asked.handles and is_policy(asked.handles[-1]):
            self.translation.tied[asked.handles[-1]] = line
        for _, entry, handle in asked.places:
            if is_session(entry.handle):
                self.keep_step(entry, handle)

    def keep_step(self, entry: Entry, handle: int | None) -> None:
        """Handles an entry that used a session on this device only: ends the session on the other
        TPM too, or restarts the session's policy there.
        """
        handles = self.translation.handles
        if not entry.attributes & CONTINUE_SESSION:
            self.flush(handles.pop(entry.handle, None))
        elif handle is not None and is_policy(entry.handle) and entry.handle in handles:
            restart = frames.number(handles[entry.handle], 4)
            self.other.execute(frames.command(CC.PolicyRestart, restart))
            self.translation.untie(entry.handle)

    def known(self) -> set[int]:
        return {*self.translation.known.names, *self.translation.lost}

    def flush(self, handle: int | None) -> None:
        if handle is not None:
            self.other.execute(frames.command(CC.FlushContext, frames.number(handle, 4)))

    def state(self) -> None:
        if not self.here.model.started:
            return
        for buffer in READS:
            asked, response = parsed(buffer), self.other.execute(buffer).response
            event = self.execute(buffer)
            if asked is None or any(response[6:10]) or any(event.response[6:10]):
                continue
            fields = asked.code.answered_parameters
            here, there = (read_all(fields, it[10:]) for it in (event.response, response))
            for what, *both in between(here, there):
                if what not in (COUNTER, "moreData"):
                    self.differ(f"the state, by {asked.code.name}", asked, what, *both)
