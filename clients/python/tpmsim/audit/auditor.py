"""Audits a device's log event by event: with the model of the device in Python, and also from the
history of accepted commands alone.
"""

from dataclasses import dataclass
from typing import Iterator, Sequence

from tpmsim import records
from tpmsim.audit.ground import Grounds
from tpmsim.audit.lines import CounterLines, PcrLines, Repeats, ValueLines
from tpmsim.audit.log import Disagreement, Log
from tpmsim.audit.offline import OfflineGuesses
from tpmsim.audit.policy_lines import Policies
from tpmsim.audit.session_lines import SessionLines
from tpmsim.audit.start import Start
from tpmsim.audit.uses import Guesses, Refusals, Uses
from tpmsim.audit.watch import Entities, Seen, Watch
from tpmsim.model.history import ObjectPlaced
from tpmsim.model.image import Fault
from tpmsim.model.player import LINES
from tpmsim.policies.policy_file import PolicyFile
from tpmsim.standard import lines
from tpmsim.standard.command_names import command_name


@dataclass
class Counts:
    accepted: int = 0
    refused: int = 0
    layer: int = 0
    power_cycles: int = 0

    @property
    def commands(self) -> int:
        return self.accepted + self.refused + self.layer

    @property
    def events(self) -> int:
        return self.commands + self.power_cycles


class Auditor:
    """The audit of a log, and what is known so far. `last` is the line of the log's latest event."""

    def __init__(self, start: Start, log: Log, policy_files: Sequence[PolicyFile] = ()) -> None:
        device, history = start.device, start.history
        self.start, self.log, self.history = start, log, history
        self.watch = Watch(device)
        self.watch.layer = start.layer
        self.device, self.counts, self.last = device, Counts(), 0
        self.cut: records.Cut | None = None
        self.pcrs, self.values = PcrLines(history, start.text), ValueLines(start.text)
        self.sessions = SessionLines(history, start.text)
        self.entities = Entities(device, start.text)
        self.counters = CounterLines(device, history, start.text)
        self.guesses = Guesses(device, self.sessions)
        self.repeats, self.refusals = Repeats(self.sessions), Refusals()
        self.grounds = Grounds(history, self.sessions, self.pcrs, self.values)
        self.policies = Policies(policy_files, self.entities, self.grounds)
        self.offline = OfflineGuesses(self.sessions)
        noting = self.guesses, self.repeats, self.policies, self.offline
        self.uses = Uses(self.grounds, self.entities, *noting)

    def read(self, script: bytes) -> None:
        """Audits the lines of a script, up to the first line that raises Disagreement."""
        is_begun = False
        for step in records.steps_of(script):
            self.watch.seen, self.watch.line = None, step.line
            if isinstance(step, records.Bad):
                self.log.end()
                raise Disagreement(bad_words(step))
            if isinstance(step, records.Cut):
                self.cut = step
            elif isinstance(step, records.Begin):
                self.begin(step, is_begun)
                is_begun = True
            elif isinstance(step, records.Power):
                self.power(step.line)
                is_begun = True
            elif isinstance(step, records.Command):
                self.command(step)
                is_begun = True
        self.log.end()

    def begin(self, step: records.Begin, is_begun: bool) -> None:
        """Reads a journal's head: the first one, or a later one of the same device. A power cycle
        always precedes a head with an image, and may precede a head with a state text.
        """
        if step.damage:
            raise Disagreement(f"script line {step.line}: {step.damage}")
        try:
            begun = records.opened(step.content, step.start)
            goes_on = not is_begun or records.goes_on(self.device, step.content)
            is_cycled = not goes_on and records.is_cycled(self.device, step.content)
        except Fault as fault:
            raise Disagreement(f"script line {step.line} begins with no device: {fault}") from None
        if not (goes_on or is_cycled):
            raise Disagreement(f"script line {step.line} begins with another device")
        if is_cycled or is_begun and not begun.is_state:
            self.power(step.line)
            records.goes_on(self.device, step.content)
        self.watch.layer = begun.layer

    def power(self, line: int) -> None:
        self.device.power_cycle()
        self.watch.layer.forget(self.device)
        self.judge(line, ["power"])

    def command(self, step: records.Command) -> None:
        event = step.buffer, step.locality, step.random, step.elapsed
        outcome = self.watch.executed(*event, step.completes)
        trace = records.COMPLETED
        if not step.completes:
            trace = lines.traced(outcome, step.locality, step.elapsed)
        self.judge(step.line, [trace, outcome.response.hex()], step)

    def judge(self, number: int, printed: list[str], step: records.Command | None = None) -> None:
        seen = self.watch.latest
        seen.line = self.last = number
        try:
            self.compare(seen, printed, step)
            if seen.event is None:
                self.refuse(seen)
            else:
                self.accept(seen)
            if seen.placed is not None:
                self.place(seen, seen.placed)
            self.follow()
        except Disagreement as fault:
            name = "power" if seen.is_power_cycle else command_name(seen.outcome.row.code)
            where = ", ".join(filter(None, (f"script line {seen.line}", name)))
            raise Disagreement(f"{where}: {fault}") from None

    def compare(self, seen: Seen, printed: list[str], step: records.Command | None) -> None:
        """Compares a replayed event with the log's output, and with the response that the script
        itself records.
        """
        try:
            has_answer = step is None or step.mark is not None or bool(step.said)
            self.log.check(printed, has_answer)
        except Disagreement as fault:
            raise Disagreement(f"{fault}{self.uses.reason(seen)}") from None
        if step is None or seen.explained is None:
            return
        seen.explained.compare_all(step)
        for it in seen.explained.differences:
            more = (
                f": the log says {it.log}, but a device with this start {it.model}"
                if it.log
                else ""
            )
            raise Disagreement(f"{it.words}{more}")

    def follow(self) -> None:
        told = ", ".join(self.history.differences(self.device))
        if told:
            raise Disagreement(f"the device differs from its history: {told}")

    def refuse(self, seen: Seen) -> None:
        self.guesses.refuse(seen, self.grounds)
        is_of_layer = seen.explained is not None and bool(seen.explained.layer)
        self.counts.layer += is_of_layer
        self.counts.refused += not is_of_layer
        self.uses.refuse(seen)
        self.refusals.note(seen)

    def accept(self, seen: Seen) -> None:
        if seen.is_power_cycle:
            self.counts.power_cycles += 1
        else:
            self.counts.accepted += 1
        self.note(seen)

    def place(self, seen: Seen, placed: ObjectPlaced) -> None:
        """Adds the object of a context to the history."""
        self.history.add(placed)
        self.values.place(seen, placed)
        self.entities.place(seen, placed)

    def note(self, seen: Seen) -> None:
        """Checks the authorization entries of an event against the history before it; then adds the
        event to the history.
        """
        if seen.is_power_cycle:
            self.watch.past.power(seen.line)
        else:
            self.uses.accept(seen)
            self.sessions.assert_on(seen)
        assert seen.event is not None
        self.history.add(seen.event)
        self.pcrs.note(seen)
        self.values.note(seen)
        self.sessions.note(seen)
        self.entities.note(seen)
        self.counters.note(seen)
        self.guesses.note(seen)


def bad_words(step: records.Bad) -> str:
    if isinstance(step, records.BadHead):
        return f"script line {step.line}: the head is not whole"
    if step.line > LINES:
        return f"the script has more than {LINES} lines; the log agrees up to there"
    return f"script line {step.line} is not a line of a script; the log agrees up to it"


def report(auditor: Auditor) -> Iterator[str]:
    yield f"Start: {auditor.start.words}."
    yield events_words(auditor.counts)
    if auditor.cut is not None:
        words = f"{counted(auditor.cut.size, 'byte')} of an incomplete record are left out"
        yield f"Script line {auditor.cut.line}: {words}."
    given = [auditor.policies.report()] if auditor.policies.all else []
    offline = [auditor.offline.report()] if auditor.offline.told else []
    for part in (
        *(auditor.pcrs.report(), auditor.sessions.report(), auditor.uses.report()),
        *(auditor.refusals.report(), *given, auditor.repeats.report()),
        *(auditor.counters.report(), auditor.guesses.report(auditor.last), *offline),
    ):
        yield ""
        yield from part
    yield ""


def events_words(counts: Counts) -> str:
    commands = counted(counts.commands, "command")
    of_these = f"{counts.accepted} of them accepted and {counts.refused} refused"
    if counts.layer:
        of_these = f"{counts.accepted} of them accepted, {counts.refused} refused"
        of_these += f" and {counts.layer} answered by the completing layer"
    cycles = counted(counts.power_cycles, "power cycle")
    return f"{counted(counts.events, 'event')}: {commands}, {of_these}, and {cycles}."


def counted(count: int, word: str) -> str:
    return f"{count} {word}" if count == 1 else f"{count} {word}s"
