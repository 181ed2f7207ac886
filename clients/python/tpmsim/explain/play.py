"""Plays a log: the outcome of each event, and the reason for it."""

import re
from collections import deque
from dataclasses import dataclass, field
from typing import Any, Callable, Iterator

from tpmsim import records
from tpmsim.explain import accepted, checks, dissection, entries, ingredients, parameters
from tpmsim.explain.contexts import Contexts
from tpmsim.explain.dissection import Field
from tpmsim.explain.past import Past
from tpmsim.explain.reason import Client, Fact, OfLayer, Reason, Scene, WANTED
from tpmsim.model import image as images
from tpmsim.model.completion import asked_of, Completed, Completion, CONTEXT_LOAD, CONTEXT_SAVE
from tpmsim.model.contexts import INTEGRITY
from tpmsim.model.general import Command
from tpmsim.model.machine import Model, Outcome
from tpmsim.model.object_rules import Object
from tpmsim.model.sequence_sessions import SessionUse
from tpmsim.records import goes_on, Opened, opened, TRACE
from tpmsim.records.marks import sum_of
from tpmsim.standard import CC, frames, HEADER_BYTES, lines, policy
from tpmsim.standard.command_names import command_name

CODE_AT, CODE_DIGITS = 12, 8

# TPM2_Startup(CLEAR), and the response code of a command before it.
STARTUP, INITIALIZE = frames.command(CC.Startup, bytes(2)), f"{frames.CODES['INITIALIZE']:08x}"
BAD_LINE = "line {} is no line of a script; `tpmsim check` says what is wrong with it"
NO_STARTUP = (
    "{name} in line {line} comes before TPM2_Startup; after power-on, a device refuses it: INITIALIZE "
    "(100), by check G5. It is explained as on a device that TPM2_Startup(CLEAR) has started."
)


@dataclass(frozen=True)
class Difference:
    words: str
    log: str
    model: str


@dataclass
class Event:
    """An event of a log. It contains why the command was refused, what else is reported about the
    command, and where the log's responses differ. At a power cycle the scene has no buffer.
    `answers` is the number of responses in the log. If the event is examined as a whole, `entries`
    contains the ingredients of the HMACs, by position, and `answered` the decrypted response
    parameters. `comments` contains the paragraphs of comments before the event. With `completes`,
    the completing layer was present: `layer` says what it did, if anything, and `own` is the
    outcome that the device alone gave. `sent` is the outcome of the command that the layer sent to
    the device, if it sent one.
    """

    line: int
    scene: Scene
    outcome: Outcome | None = None
    reason: Reason | None = None
    notes: list[Reason] = field(default_factory=list)
    differences: list[Difference] = field(default_factory=list)
    names: list[bytes] = field(default_factory=list)
    entries: list[tuple[int, list[Fact]]] = field(default_factory=list)
    answered: bytes | None = None
    answers: int = 0
    text: str = ""
    comments: list[str] = field(default_factory=list)
    layer: str = ""
    own: Outcome | None = None
    completes: bool = False
    sent: Outcome | None = None

    @property
    def is_power(self) -> bool:
        return self.outcome is None

    @property
    def refused(self) -> str:
        return self.outcome.refused or "" if self.outcome else ""

    @property
    def response(self) -> bytes:
        return self.outcome.response if self.outcome else b""

    def fields(self) -> tuple[list[Field], list[Field]]:
        asked = dissection.fields_of_command(self.scene.buffer, self.scene.plain)
        number = self.scene.number
        return asked, dissection.fields_of_response(number, self.response, self.answered)

    def compare(self, text: str) -> None:
        """Compares a trace, a response code or a response in the log with that of the model."""
        assert self.outcome is not None
        self.answers += 1
        if re.fullmatch(TRACE, text):
            wanted = lines.traced(self.outcome, self.scene.locality, self.scene.elapsed)
            words = "the trace is another one"
        elif len(text) == CODE_DIGITS:
            wanted, words = self.response[6:10].hex(), "the response code is another one"
        else:
            wanted = self.response.hex()
            words = "the response is another one" + self.where(text, wanted)
        if text != wanted:
            self.differences.append(Difference(words, text, wanted))

    def compare_all(self, step: records.Command, is_foreign: bool = False) -> None:
        """Compares everything that the log says about the response. Of another TPM's response only
        the code is compared, since another TPM has other properties and other random bytes.
        """
        if step.damage:
            self.differences.append(Difference(step.damage, "", ""))
        for it in step.said:
            self.compare(code_said(it) if is_foreign else it)
        if step.mark is not None:
            self.compare_sum(step.mark.answered)

    def compare_sum(self, answered: int) -> None:
        """Compares the recorded checksum of the response with that of the model's response."""
        self.answers += 1
        own = sum_of(self.response)
        if own != answered:
            words = "the response is another one than was recorded, by its sum"
            told = f"{own:016x}, of {self.response.hex()}"
            self.differences.append(Difference(words, f"{answered:016x}", told))

    def where(self, text: str, wanted: str) -> str:
        digits = enumerate(zip(text, wanted))
        at = next((at for at, (a, b) in digits if a != b), min(len(text), len(wanted))) // 2
        fields = dissection.fields_of_response(self.scene.number, self.response)
        found = [it for it in fields if not it.is_group and it.at <= at < it.at + it.size]
        return f" from byte {at} on{f', in {found[-1].name}' if found else ''}"


class Answers:
    """The lines that `tpmsim run` printed, if they are available."""

    def __init__(self, text: bytes | None) -> None:
        self.is_given = text is not None
        self.left = deque((text or b"").decode("latin-1").splitlines())

    def power(self) -> None:
        """Reads the line `power` of a trace. Without a trace, nothing is printed for a power cycle."""
        if self.left and self.left[0] == "power":
            self.left.popleft()

    def compare(self, event: Event) -> None:
        """Compares what the output says about a command."""
        said = list[str]()
        if self.left and self.left[0] == records.COMPLETED:
            self.left.popleft()
        if self.left and re.fullmatch(TRACE, self.left[0]):
            said.append(self.left.popleft())
        if self.left:
            said.append(self.left.popleft())
        elif self.is_given:
            missing = Difference("the answers end before it", "", event.response.hex())
            event.differences.append(missing)
        for it in said:
            event.compare(it)


def reason_of(scene: Scene) -> Reason:
    return parameters.reason(scene) if scene.check == "G11" else checks.reason(scene)


class Watched:
    """A device whose events are observed. A refusal is explained if `explains` returns true for its
    scene.
    """

    def __init__(
        self, model: Model, explains: Callable[[Scene], bool] = lambda scene: True
    ) -> None:
        self.explains = explains
        self.line, self.at, self.is_whole = 0, -1, False
        # Values that the user asked to try in a refused HMAC, password or policy.
        self.tried: tuple[bytes, ...] = ()
        self.event: Event | None = None
        self.layer, self.contexts = Completion(), Contexts()
        self.put(model)

    def put(self, model: Model) -> None:
        """Observes this device from now on. Nothing is known about its past."""
        self.model, self.past = model, Past(model)
        for it in (self.authorize, self.answered_parameters, self.plain_parameters):
            setattr(model, it.__name__, it)

    @property
    def now(self) -> Event:
        assert self.event is not None
        return self.event

    def power(self) -> Event:
        self.model.power_cycle()
        self.layer.forget(self.model)
        self.past.power(self.line)
        self.event = Event(self.line, Scene(self.model, self.past, self.line, b"", 0, b"", 0))
        return self.event

    def command(
        self, buffer: bytes, locality: int, random: bytes, elapsed: int, completes: bool = False
    ) -> Event:
        if completes:
            return self.completed(buffer, locality, random, elapsed)
        self.execute(buffer, locality, random, elapsed)
        self.layer.forget(self.model)
        return self.judged()

    def execute(self, buffer: bytes, locality: int, random: bytes, elapsed: int) -> Outcome:
        """Executes a command on the device; `judged` explains the outcome afterwards."""
        scene = Scene(self.model, self.past, self.line, buffer, locality, random, elapsed)
        scene.tried = self.tried
        event = self.event = Event(self.line, scene)
        outcome = event.outcome = Model.execute(self.model, buffer, locality, random, elapsed)
        scene.check, scene.refused = outcome.row.check, outcome.refused or ""
        scene.operands = outcome.operands
        return outcome

    def judged(self) -> Event:
        """Returns the event, with the reason why the device refused it, or what it did."""
        event, scene = self.now, self.now.scene
        assert event.outcome is not None
        if not event.refused:
            self.follow(event, event.outcome)
            return event
        if entries.is_try(scene):
            self.past.tries.append(self.line)
        if self.explains(scene):
            event.reason = reason_of(scene)
        event.notes = accepted.of_refusal(scene)
        return event

    def completed(self, buffer: bytes, locality: int, random: bytes, elapsed: int) -> Event:
        """Executes a command with the completing layer, which may respond itself, place the object
        of a context, or send another command to the device.
        """
        told, events = (buffer, locality, random, elapsed), list[Event]()

        def execute(*event: Any) -> Outcome:
            outcome = self.execute(*event)
            events.append(self.now)
            return outcome

        done = self.layer.execute(self.model, told, execute, self.place)
        sent = self.judged_sent(buffer, done.use) if done.sent is not None else None
        event = self.event = events[0]
        event.completes = True
        if not done.did:
            return self.judged()
        event.layer, event.own, event.sent = done.did, done.own, done.sent
        if not done.own.refused:
            self.judged()  # the device itself executed the command
        event.outcome, event.scene.refused = done.outcome, done.outcome.refused or ""
        self.note_context(event, done)
        if sent is not None:
            self.note_sent(event, sent)
        return event

    def judged_sent(self, buffer: bytes, use: SessionUse | None) -> Event:
        """Returns the event of the command that the layer sent for the client's command in
        `buffer`. `use` is the session of which the layer checked the HMAC, if there is one.
        """
        event = self.now
        if use is not None:
            event.scene.client = Client(buffer, use)
            if not event.refused:
                event.entries = list(entry_facts(event.scene)) if self.examines else []
                self.past.accepted_buffers[buffer] = self.line
        return self.judged()

    @property
    def examines(self) -> bool:
        """Whether the event of this line is examined as a whole."""
        return self.is_whole or self.line == self.at

    @staticmethod
    def note_sent(event: Event, sent: Event) -> None:
        """Notes what is known about the command that the layer sent, such as why the device refused
        it. Offsets in that command's buffer are left out.
        """
        event.notes, event.entries = sent.notes, sent.entries
        if event.refused:
            event.reason = sent.reason
        for reason in filter(None, (*event.notes, event.reason)):
            reason.at = None

    def note_context(self, event: Event, done: Completed) -> None:
        """Notes a saved context, or the reason why the layer refuses a command."""
        asked, bound = asked_of(event.scene.buffer), (self.model, self.layer.start)
        if not event.refused:
            if asked is not None and asked.code == CONTEXT_SAVE:
                self.contexts.note(self.line, event.response[HEADER_BYTES:], *bound)
            return
        more = ""
        if asked is not None and asked.code == CONTEXT_LOAD and done.did == INTEGRITY[1]:
            more = self.contexts.why_wrong(asked.parameters, *bound)
        elif asked is not None and asked.code == CONTEXT_LOAD:
            more = self.past.ended_words(int.from_bytes(asked.parameters[8:12], "big"))
        event.reason = of_layer(done, more)

    def place(self, kept: Object) -> int | None:
        """Places the object of a context in the device."""
        handle = self.model.place(kept)
        self.past.follow(self.line, "ContextLoad")
        return handle

    def follow(self, event: Event, outcome: Outcome) -> None:
        scene, answered = event.scene, None
        assert scene.plain is not None
        if scene.code.answers_handle:
            answered = int.from_bytes(outcome.response[10:14], "big")
        event.notes += accepted.after(scene)
        if scene.has_entries:
            self.past.accepted_buffers[scene.buffer] = self.line
        self.past.accepted(self.line, scene.command, scene.plain, answered, event.names)
        if scene.code == CC.Create and event.answered is not None:
            self.past.note_created(self.line, scene.command, event.answered)

    # Methods that the model calls during execution.

    def authorize(self, command: Command, locality: int) -> None:
        self.now.scene.known = command
        self.now.names = self.model.names(command)
        Model.authorize(self.model, command, locality)

    def plain_parameters(self, command: Command) -> bytes:
        plain, event = Model.plain_parameters(self.model, command), self.now
        event.scene.plain = plain
        event.notes = accepted.before(event.scene)
        if self.examines:
            event.entries = list(entry_facts(event.scene))
        return plain

    def answered_parameters(self, command: Command, parameters: bytes) -> bytes:
        self.now.answered = parameters
        return Model.answered_parameters(self.model, command, parameters)


def of_layer(done: Completed, more: str = "") -> Reason:
    return OfLayer("", f"The completing layer answers it: {done.did}. {more}".rstrip())


class Play(Watched):
    """A device that plays the lines of a log. `bad_line` is the number of a bad line, and `fault`
    says why playing stopped. `damages` lists what is wrong with heads, and `cuts` the parts of
    records that a crash cut off. `watch` is called with each event at once, while the device is in
    the state after the event. `remarks` say how the log was read, and `is_foreign` that its
    responses may be those of another TPM.
    """

    def __init__(
        self,
        image: bytes | None = None,
        answers: bytes | None = None,
        at: int | None = None,
        is_whole: bool = False,
    ) -> None:
        """Raises image.Fault if the image is neither an image nor a state text. The event in the
        line `at`, or with `is_whole` each event, is examined as a whole.
        """
        begun = Opened(Model(), Completion()) if image is None else opened(image)
        super().__init__(begun.device)
        self.layer = begun.layer
        self.at, self.is_whole = -1 if at is None else at, is_whole
        self.answers, self.given = Answers(answers), image
        self.bad_line: int | None = None
        self.fault = ""
        self.cuts, self.damages = list[records.Cut](), list[str]()
        self.remarks, self.is_foreign = list[str](), False
        self.comments = list[str]()
        self.watch: Callable[[Event], None] = lambda event: None

    def events(self, log: bytes) -> Iterator[Event]:
        """Yields each event, with everything that the log says about its response."""
        self.start_if_alone(log)
        for step in records.steps_of(log):
            try:
                event = self.step(step)
            except images.Fault as fault:
                self.fault = f"line {step.line} begins with what is no image: {fault}"
                break
            if event is not None:
                yield event

    def start_if_alone(self, log: bytes) -> None:
        """Starts a new device, if the log is a single command that comes before TPM2_Startup, or is
        another program's, which may begin at any time.
        """
        alone = self.first_alone(log)
        if alone is None:
            return
        name = command_name(int.from_bytes(alone.buffer[6:HEADER_BYTES], "big")) or "The command"
        self.remarks.append(NO_STARTUP.format(name=name, line=alone.line))
        self.execute(STARTUP, 0, bytes(frames.COMMAND_BYTES), 0)
        self.judged()
        self.event = None

    def first_alone(self, log: bytes) -> records.Command | None:
        """Returns the first command of a log that needs a started device, and has none."""
        if self.given is not None or self.answers.is_given:
            return None
        steps = (it for it in records.steps_of(log) if not isinstance(it, records.Comment))
        first = next(steps, None)
        if not isinstance(first, records.Command) or not needs_start(first):
            return None
        return first if self.is_foreign or next(steps, None) is None else None

    def step(self, step: records.Step) -> Event | None:
        """Plays a step, and returns its event, if there is one."""
        self.line = step.line
        if isinstance(step, records.Command):
            return self.shown(self.told(step), step.text)
        if isinstance(step, records.Power):
            self.answers.power()
            return self.shown(self.power(), b"power")
        if isinstance(step, records.Begin):
            return self.begin(step)
        if isinstance(step, records.Comment):
            self.comment(step.words)
        elif isinstance(step, records.Cut):
            self.cuts.append(step)
        elif isinstance(step, records.Bad):
            self.bad_line, self.fault = step.line, BAD_LINE.format(step.line)
            if isinstance(step, records.BadHead):
                self.fault = f"line {step.line}: the head is not whole"
        return None

    def told(self, step: records.Command) -> Event:
        """Plays a command of the log, with what the log says about its response."""
        told = step.buffer, step.locality, step.random, step.elapsed
        event = self.command(*told, step.completes)
        event.compare_all(step, self.is_foreign)
        self.answers.compare(event)
        return event

    def shown(self, event: Event, text: bytes) -> Event:
        """Adds the text of the line, and the comments before the line, to an event."""
        event.text = text.decode("latin-1")
        event.comments = [it for it in self.comments if it]
        self.comments = []
        self.watch(event)
        return event

    def comment(self, words: str) -> None:
        """Adds a line of a comment to its paragraph. An empty line ends the paragraph."""
        if words and self.comments:
            self.comments[-1] = f"{self.comments[-1]} {words}".strip()
        elif words:
            self.comments.append(words)
        elif self.comments and self.comments[-1]:
            self.comments.append("")

    def begin(self, step: records.Begin) -> Event | None:
        """Continues with the device of a head. If that device is already observed, it simply
        continues; but it is power-cycled if the head contains an image, or a state text from after
        a power cycle.
        """
        is_first = self.event is None
        if step.damage:
            self.damages.append(f"line {step.line}: {step.damage}")
        begun, is_same = opened(step.content, step.start), self.is_same(step, is_first)
        is_cycled = not (is_first or is_same) and records.is_cycled(self.model, step.content)
        if is_first or not (is_same or is_cycled):
            self.put(begun.device)
        self.layer = begun.layer
        if is_first or begun.is_state and not is_cycled:
            return None
        event = self.power()
        goes_on(self.model, step.content)
        return self.shown(event, b"power")

    def is_same(self, step: records.Begin, is_first: bool) -> bool:
        """Whether the device of a head is the device that is already observed."""
        is_same = goes_on(self.model, step.content)
        if is_first and self.given is not None and not is_same:
            words = "the device in the log is another one than that of --image"
            self.damages.append(f"line {step.line}: {words}")
        return is_same


def needs_start(step: records.Command) -> bool:
    """Whether only a started device executes a command, and the log does not show a device that was
    not started.
    """
    is_told = step.mark is not None or INITIALIZE in map(code_said, step.said)
    number = step.buffer[6:HEADER_BYTES]
    return len(number) == 4 and number != STARTUP[6:HEADER_BYTES] and not is_told


def code_said(said: str) -> str:
    """Returns the response code in a trace, a response code or a response."""
    is_response = " " not in said and len(said) > CODE_DIGITS
    return said[CODE_AT : CODE_AT + CODE_DIGITS] if is_response else said[-CODE_DIGITS:]


def entry_facts(scene: Scene) -> Iterator[tuple[int, list[Fact]]]:
    for place, entry, _ in scene.command.places:
        use = ingredients.use_of(scene, place)
        if use is not None and use.entry.hmac and entry.demand != policy.PASSWORD:
            found = ingredients.facts(use)
            found.append(Fact("HMAC", use.right().hmac.hex(), WANTED))
            yield place, found
