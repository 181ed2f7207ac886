"""The templates of sentences.json, which say why a check refuses a command.

A row belongs to a check, by its key in rules.json. If a refusal has the operand `case`, this
follows the key after a dot. The check of the parameters (G11) has a row for each value of the
operand `expected`. A row contains templates:

    says                   the sentence
    at                     the wrong field; in front of it, the structure that contains it
    wanted, had and facts  what was expected, what was found and further values, each with its label
    wrong                  words for each broken rule that the operand of this name lists
    rule                   the key in rules.json, if the row's own key is not there

A template is a format string. It names operands of the refusal, parameters of the command and
attributes of Look. After a colon it says in which words a value is printed (WORDS, LOOK_WORDS).
"""

import json
import pathlib
import string
from typing import Any, Callable, Iterable, Mapping, Sequence

from tpmsim.explain import words
from tpmsim.explain.reason import HAD, Look, PLAIN, WANTED
from tpmsim.standard import nv, objects
from tpmsim.standard.handle_kinds import HANDLES

FILE = pathlib.Path(__file__).with_name("sentences.json")
ROWS: dict[str, dict[str, Any]] = {
    rule: row
    for rules, row in json.loads(FILE.read_text("utf-8")).items()
    for rule in rules.split()
}
NO_TYPE = ~(nv.TYPE_MASK << nv.TYPE_SHIFT)
ACCESS = nv.READS | nv.WRITES


def numbers(those: Iterable[int]) -> str:
    return words.listed(map(str, those))


def from_words(localities: Sequence[int]) -> str:
    return f"from locality {numbers(localities)}" if localities else "from no locality"


WORDS: dict[str, Callable[[Any], str]] = {
    "access flags": lambda it: words.flag_words(it & ACCESS, nv.Attribute),
    "algorithm": words.algorithm_words,
    "allowed handles": lambda kind: HANDLES[kind].words,
    "bit": lambda it: "-" if it is None else str(int(it)),
    "bytes": words.bytes_words,
    "command": words.command_words,
    "digest": lambda data: data.hex() or "empty",
    "digests": lambda those: words.listed(it.hex() or "empty" for it in those),
    "entry attributes": words.attribute_words,
    "from localities": from_words,
    "handle": words.handle_words,
    "handles": lambda count: words.plural(count, "handle"),
    "hex": lambda data: bytes(data).hex(),
    "index flags": lambda it: words.flag_words(it & NO_TYPE, nv.Attribute),
    "index type": words.index_type_words,
    "its writer": words.writer_words,
    "kind": words.kind_words,
    "localities": words.localities_words,
    "numbers": lambda those: numbers(those) or "none",
    "object flags": lambda it: words.flag_words(it, objects.Attribute),
    "operation": lambda number: words.OPERATIONS[number],
    "signed": words.signed_words,
    "size": words.size_words,
    "unknown command": words.not_served,
    "words": " ".join,
    "written": words.written_words,
}

# Words that depend on the refusal or on the earlier events.
LOOK_WORDS: dict[str, Callable[[Look, Any], str]] = {
    ", since line": lambda look, handle: look.since(handle, ", since line"),
    "in line": lambda look, handle: look.since(handle, " in line"),
    "last change": lambda look, index: look.past.last_change.get(index, "the start"),
    "missing": Look.missing_words,
    "one of": lambda look, allowed: words.one_of_words(allowed, look.operands["digits"]),
    "since line": lambda look, handle: look.since(handle, " since line"),
}


class Template(string.Formatter):
    """Fills in the templates of a row."""

    def __init__(self, look: Look, row: dict[str, Any]) -> None:
        self.look, self.row = look, row

    def get_value(self, key: int | str, args: Sequence[Any], kwargs: Mapping[str, Any]) -> Any:
        name, operands = str(key), self.look.operands
        if name == "wrong":
            return "; ".join(self.format(self.row["wrong"][it]) for it in operands["wrong"])
        for known in (operands, self.look.values):
            if name in known:
                return known[name]
        return getattr(self.look, name)

    def format_field(self, value: Any, format_spec: str) -> str:
        if format_spec in LOOK_WORDS:
            return LOOK_WORDS[format_spec](self.look, value)
        said = WORDS.get(format_spec)
        return said(value) if said else str(format(value, format_spec))


def say(look: Look, key: str) -> None:
    """Sets the reason for a refusal, as far as the row with this key says it."""
    row = ROWS.get(key, {})
    template, found = Template(look, row), look.found
    found.rule = row.get("rule", found.rule)
    found.words = template.format(row.get("says", ""))
    if "at" in row and (field := look.field(template.format(row["at"]))):
        found.at = field.at
    for name, sort in (("wanted", WANTED), ("had", HAD), ("facts", PLAIN)):
        for label, value in row.get(name, {}).items():
            found.add(label, template.format(value), sort)
