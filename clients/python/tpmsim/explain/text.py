"""Explanations as lines of text, and as JSON values."""

import textwrap
from dataclasses import dataclass, field
from typing import Any, Iterable, Iterator

from tpmsim.explain.code_words import meaning_of, title_of
from tpmsim.explain.dissection import Field
from tpmsim.explain.play import Event, Play
from tpmsim.explain.reason import Fact, OfLayer, Reason
from tpmsim.explain.words import plural, size_words
from tpmsim.standard.command_names import command_name
from tpmsim.taken.codes import Code

WIDTH, MOST_DIFFERING = 100, 8
INDENT = "    "
WRAPPER = textwrap.TextWrapper(
    WIDTH, initial_indent=INDENT, subsequent_indent=INDENT, break_on_hyphens=False
)


@dataclass
class Counts:
    """The number of events with each outcome, and the lines at which responses differ."""

    commands: int = 0
    power_cycles: int = 0
    refused: int = 0
    notes: int = 0
    layer: int = 0
    answers: int = 0
    differing: list[int] = field(default_factory=list)

    def add(self, event: Event) -> None:
        if event.is_power:
            self.power_cycles += 1
            return
        self.commands += 1
        self.refused += bool(event.refused)
        self.notes += len(event.notes)
        self.layer += bool(event.layer)
        self.answers += event.answers
        if event.differences:
            self.differing.append(event.line)

    def words(self) -> str:
        commands = f"{plural(self.commands, 'command')}, {self.refused:,} of them refused"
        cycles = plural(self.power_cycles, "power cycle")
        layer = f" The completing layer answered {self.layer:,} of them." if self.layer else ""
        return f"{commands}, and {cycles}.{layer} {self.answer_words()}"

    def answer_words(self) -> str:
        if self.differing:
            lines = ", ".join(map(str, self.differing[:8]))
            more = ", .." if len(self.differing) > 8 else ""
            return f"The log's answers and the model's differ in the lines {lines}{more}."
        if not self.answers:
            return "The log has no answers to compare."
        are = "is" if self.answers == 1 else "are"
        return f"{plural(self.answers, 'answer')} of the log {are} the model's."


def name_of(event: Event) -> str:
    """Returns the command's name, even if the device does not implement the command."""
    return command_name(event.scene.number) or "A command"


def of_log(events: list[Event], play: Play) -> Iterator[str]:
    """Yields the lines about a log. Differences from the model come first, since everything after
    them is unreliable.
    """
    for words in play.remarks:
        yield from textwrap.wrap(words, WIDTH, break_long_words=False, break_on_hyphens=False)
    if play.remarks:
        yield ""
    for words in play.damages:
        yield from (words, "")
    differing = [it for it in events if it.differences]
    for event in [] if play.is_foreign else differing[:MOST_DIFFERING]:
        yield from differences(event)
        yield ""
    if len(differing) > MOST_DIFFERING and not play.is_foreign:
        yield f"{plural(len(differing) - MOST_DIFFERING, 'more command')} differ."
        yield ""
    for event in events:
        if play.is_foreign and event.differences:
            yield from other_answer(event)
        yield from reasons(event)
    for words in cut_words(play):
        yield from (words, "")


def cut_words(play: Play) -> list[str]:
    left_out = "of an incomplete record are left out"
    return [f"line {it.line}: {plural(it.size, 'byte')} {left_out}" for it in play.cuts]


def ends_words(play: Play) -> list[str]:
    """Returns sentences about what is wrong with the log's heads and with its end."""
    return [f"{it[0].upper()}{it[1:]}." for it in (*play.damages, *cut_words(play))]


def told(event: Event) -> Iterator[str]:
    yield from differences(event)
    yield from reasons(event)


def differences(event: Event) -> Iterator[str]:
    for it in event.differences:
        yield f"line {event.line}: {name_of(event)}: {it.words}"
        if it.log or it.model:
            yield from facts_words([Fact("the log says", it.log), Fact("the model says", it.model)])


def reasons(event: Event) -> Iterator[str]:
    if event.reason is not None:
        yield f"line {event.line}: {title(event)}"
        is_said = isinstance(event.reason, OfLayer)
        yield from wrapped(own_words(event)) if is_said else layer_words(event)
        yield from of_reason(event.reason)
    for note in event.notes:
        yield f"line {event.line}: {name_of(event)}, worth a look"
        yield from of_reason(note)


def other_answer(event: Event) -> Iterator[str]:
    """Yields what another TPM answered, if the model answers otherwise."""
    code = Code(int(event.differences[0].log, 16))
    does = "refuses it" if event.refused else "accepts it"
    yield f"line {event.line}: {name_of(event)}: the log's TPM answers {title_of(code)}"
    yield from wrapped(
        f"{meaning_of(code)} tpmsim {does}: it is another TPM, or has not seen all before."
    )
    if not event.refused:
        yield ""


def title(event: Event) -> str:
    name, by = name_of(event), f"by check {event.scene.check}"
    if event.layer and event.outcome is not event.own:
        by = "by the completing layer"
    if not event.refused:
        return f"{name} is accepted{f', {by}' if event.layer else ''}"
    return f"{name} is refused: {code_words(event.refused, event.response)}, {by}"


def code_words(refused: str, response: bytes) -> str:
    return f"{refused} ({int.from_bytes(response[6:10], 'big'):03x})"


def layer_words(event: Event) -> list[str]:
    """Returns what the completing layer did, and what the device itself returned."""
    if not event.layer:
        return []
    return wrapped(f"The completing layer: {event.layer}. {own_words(event)}")


def own_words(event: Event) -> str:
    own = event.own
    if own is None or own.row.code != event.scene.number and own.row.check == "G1":
        return ""
    if not own.refused:
        return "The device itself accepts it."
    code = code_words(own.refused, own.response)
    return f"The device itself refuses it: {code}, by check {own.row.check}."


def told_words(reason: Reason) -> Iterator[str]:
    yield from wrapped(reason.words)
    yield from facts_words(reason.told)


def of_reason(reason: Reason) -> Iterator[str]:
    yield from told_words(reason)
    yield from wrapped(f"{reason.by}: {reason.sentence}")
    yield f"{INDENT}{reason.link}"
    yield ""


def wrapped(words: str) -> list[str]:
    return WRAPPER.wrap(words)


def facts_words(facts: Iterable[Fact]) -> Iterator[str]:
    those = list(facts)
    room = max((len(it.label) for it in those), default=0)
    for it in those:
        yield f"{INDENT}  {it.label:{room}}  {it.value}".rstrip()


def whole(event: Event) -> Iterator[str]:
    if event.is_power:
        yield f"line {event.line}: a power cycle"
        return
    scene, response, (asked, answered) = event.scene, event.response, event.fields()
    yield f"line {event.line}: {title(event)}"
    yield from layer_words(event)
    yield f"{INDENT}locality {scene.locality}, {scene.elapsed:,} ms after the command before"
    yield f"{INDENT}the command, {size_words(len(scene.buffer))}"
    yield from fields_words(asked, scene.buffer)
    for place, facts in event.entries:
        yield f"{INDENT}the HMAC of entry {place}"
        yield from facts_words(facts)
    yield f"{INDENT}the response, {size_words(len(response))}"
    yield from fields_words(answered, response)
    yield ""


def fields_words(fields: list[Field], data: bytes) -> Iterator[str]:
    for it in fields:
        said = data[it.at + it.front : it.at + it.size].hex() if not it.is_group else ""
        name, meaning = "  " * it.depth + it.name, f"({it.meaning})" if it.meaning else ""
        yield f"{INDENT}  {it.at:4}  {name:26} {said} {meaning}".rstrip()


VERSION = 1

Value = dict[str, Any]


def value_of_log(events: list[Event], counts: Counts, play: Play, is_whole: bool) -> Value:
    names = "commands", "refused", "power_cycles", "answers", "differing", "layer"
    told = {it: getattr(counts, it) for it in names}
    values = [value_of_event(it, is_whole) for it in events]
    cuts = [vars(it) for it in play.cuts]
    ends = {"remarks": play.remarks, "damages": play.damages, "cuts": cuts}
    return {"version": VERSION, **told, **ends, "bad_line": play.bad_line, "events": values}


def value_of_event(event: Event, is_whole: bool) -> Value:
    scene = event.scene
    if event.is_power:
        return {"line": event.line, "power": True}
    told: Value = {
        "line": event.line,
        "command": command_name(scene.number) or None,
        "code": event.response[6:10].hex(),
        "refused": event.refused or None,
        "check": scene.check,
        "layer": value_of_layer(event),
        "locality": scene.locality,
        "elapsed": scene.elapsed,
        "reason": value_of_reason(event.reason) if event.reason else None,
        "notes": [value_of_reason(it) for it in event.notes],
        "differences": [vars(it) for it in event.differences],
    }
    if is_whole:
        asked, answered = (list(map(value_of_field, fields)) for fields in event.fields())
        told |= {
            "buffer": scene.buffer.hex(),
            "plain": None if scene.plain is None else scene.plain.hex(),
            "fields": asked,
            "response": event.response.hex(),
            "response_fields": answered,
            "entries": {str(at): [vars(it) for it in facts] for at, facts in event.entries},
        }
    return told


def value_of_layer(event: Event) -> Value | None:
    """Returns what the completing layer did, and what the device itself returned."""
    if not event.layer or event.own is None:
        return None
    own = event.own
    device = {"code": own.response[6:10].hex(), "refused": own.refused, "check": own.row.check}
    return {"words": event.layer, "device": device}


def value_of_reason(reason: Reason) -> Value:
    names = "rule", "sentence", "link", "words", "at", "slips"
    told = {it: getattr(reason, it) for it in names}
    return {**told, "facts": [vars(it) for it in reason.told]}


def value_of_field(field: Field) -> Value:
    return {"group" if name == "is_group" else name: it for name, it in vars(field).items()}
