"""A command that is being explained: why it was refused or, if it was accepted, what is reported
about it.
"""

import json
import pathlib
from dataclasses import dataclass, field
from functools import cached_property
from typing import Any, Callable

from tpmsim.explain import dissection
from tpmsim.explain.dissection import Field
from tpmsim.explain.past import Past
from tpmsim.explain.words import kind_words
from tpmsim.model.general import Command
from tpmsim.model.machine import Model
from tpmsim.model.nv_commands import Index
from tpmsim.model.object_rules import Object
from tpmsim.model.policy_state import Session
from tpmsim.model.sequence_sessions import SessionUse
from tpmsim.standard import ALL_NUMBERED, CC, Entry, frames, HEADER_BYTES, is_policy, is_session, nv
from tpmsim.standard import values

# The sentence for each check, and its location in docs/table. tools/generated.py writes the file.
RULES_FILE = pathlib.Path(__file__).with_name("rules.json")
RULES: dict[str, list[str]] = json.loads(RULES_FILE.read_text("utf-8"))

# Whether a fact is what was expected, what was found instead, or neither.
WANTED, HAD, PLAIN = "wanted", "had", ""

# The slot of a session, in its handle.
PLACE_BITS = 0xFF_FFFF

SLIP = "slip"


@dataclass(frozen=True)
class Fact:
    """A value with its label. Long values are in hex."""

    label: str
    value: str
    sort: str = PLAIN


@dataclass
class Reason:
    """Why a command was refused: a check, by its key in RULES, with the findings. `slips` are the
    common mistakes that make exactly the sent bytes, and `at` is the offset of the error in the
    buffer.
    """

    rule: str
    words: str
    facts: list[Fact] = field(default_factory=list)
    slips: list[str] = field(default_factory=list)
    at: int | None = None

    by = "By the table"

    @property
    def sentence(self) -> str:
        return RULES[self.rule][0]

    @property
    def link(self) -> str:
        """The location of the check's sentence in docs/table."""
        return RULES[self.rule][1]

    @property
    def told(self) -> list[Fact]:
        """Returns the facts, with the mistakes ("slips") first."""
        return sorted(self.facts, key=lambda it: it.label != SLIP)

    def add(self, label: str, value: str, sort: str = PLAIN) -> None:
        self.facts.append(Fact(label, value, sort))

    def compare(self, wanted: str, had: str, of: str = "") -> None:
        self.add(f"{of} wanted".strip(), wanted, WANTED)
        self.add(f"{of} had".strip(), had, HAD)

    def slip(self, name: str, words: str) -> None:
        self.slips.append(name)
        self.add(SLIP, words)


@dataclass(frozen=True)
class Client:
    """A client's command for which the completing layer sent another command to the device. `use`
    is the session in its first entry, whose HMAC the layer checked.
    """

    buffer: bytes
    use: SessionUse


@dataclass
class Scene:
    """A command, and the model of the device before that command. `refused` is the response code,
    such as VALUE/p1, and `elapsed` is in milliseconds. `known` is the command, if it passed the
    general checks, and `plain` its decrypted parameters, if its entries were accepted. `tried`
    contains the values of `--try`, and `operands` those of the refusal. `client` is the client's
    command, if the completing layer sent this one with the client's session.
    """

    model: Model
    past: Past
    line: int
    buffer: bytes
    locality: int
    random: bytes
    elapsed: int
    refused: str = ""
    check: str = "ok"
    known: Command | None = None
    plain: bytes | None = None
    tried: tuple[bytes, ...] = ()
    operands: dict[str, Any] = field(default_factory=dict)
    client: Client | None = None

    @property
    def command(self) -> Command:
        assert self.known is not None
        return self.known

    @property
    def name(self) -> str:
        return self.refused.partition("/")[0]

    @property
    def place(self) -> int:
        digits = self.refused.partition("/")[2][1:]
        return int(digits) if digits else 0

    @property
    def number(self) -> int:
        """The command code in the buffer, or 0."""
        return int.from_bytes(self.buffer[6:HEADER_BYTES], "big")

    @property
    def code(self) -> CC:
        return ALL_NUMBERED[self.number]

    @property
    def handles(self) -> list[int]:
        places = range(HEADER_BYTES, min(self.area_at, len(self.buffer) - 3), 4)
        return [int.from_bytes(self.buffer[at : at + 4], "big") for at in places]

    @property
    def has_entries(self) -> bool:
        return int.from_bytes(self.buffer[:2], "big") == frames.SESSIONS

    @property
    def area_at(self) -> int:
        return HEADER_BYTES + 4 * len(self.code.handles)

    @property
    def parameters_at(self) -> int:
        at = self.area_at
        if not self.has_entries:
            return at
        return at + 4 + int.from_bytes(self.buffer[at : at + 4], "big")


@dataclass
class OfLayer(Reason):
    """Why the completing layer refuses a command."""

    by = "By the document"

    @property
    def sentence(self) -> str:
        return "The completing layer answers what some clients need and the device by design lacks."

    @property
    def link(self) -> str:
        return "docs/TOOLS.md#the-completing-layer"


class Look:
    """A refused command, and the reason found so far."""

    def __init__(self, scene: Scene, found: Reason) -> None:
        self.scene, self.found, self.past = scene, found, scene.past
        self.model, self.operands = scene.model, scene.operands

    @property
    def handles(self) -> list[int]:
        return self.scene.handles

    @property
    def code(self) -> CC:
        return self.scene.code

    @cached_property
    def values(self) -> dict[str, Any]:
        """Returns the command's parameters; empty if the device did not read all of them."""
        is_read = self.scene.plain is not None and self.scene.check != "G11"
        return values.read_all(self.code.parameters, self.scene.plain or b"") if is_read else {}

    def __getitem__(self, name: str) -> Any:
        return self.values[name]

    @cached_property
    def session(self) -> Session:
        return self.model.sessions[next(it for it in reversed(self.handles) if is_policy(it))]

    @property
    def index(self) -> Index:
        """Returns the index that the command uses: the last handle that names one."""
        return self.model.indices[[it for it in self.handles if it in self.model.indices][-1]]

    @property
    def public(self) -> nv.Public:
        return self.index.public

    @property
    def object(self) -> Object:
        return self.model.objects[self.handles[0]]

    # The refused entry, the handle that it authorizes, and the entity of this handle.

    @property
    def place(self) -> int:
        return int(self.operands["place"])

    @property
    def entry(self) -> Entry:
        return self.scene.command.places[self.place - 1][1]

    @property
    def handle(self) -> int | None:
        return self.scene.command.places[self.place - 1][2]

    @property
    def authorized(self) -> int:
        assert self.handle is not None
        return self.handle

    @property
    def held(self) -> Object | Index | None:
        return self.model.held(self.authorized)

    @property
    def recorded(self) -> str:
        """Returns the line of the log in which the session recorded a value of the kind that this
        command asserts.
        """
        of_cp_hash = CC.PolicyCpHash, CC.PolicySecret
        codes = of_cp_hash if self.code in of_cp_hash else [self.code]
        lines = self.past.lines_told(self.handles[-1], *codes)
        return f" (line {lines[-1]})" if lines else ""

    def since(self, handle: int, words: str) -> str:
        """Returns the given words, followed by the line that made a handle's entity; empty if the
        line is unknown.
        """
        line = self.past.begun.get(handle, 0)
        return f"{words} {line}" if line else ""

    def missing_words(self, handle: int) -> str:
        """Returns why there is no entity with a handle."""
        for other in self.model.sessions if is_session(handle) else []:
            if other & PLACE_BITS == handle & PLACE_BITS and other != handle:
                return f"its place has {kind_words(other)}, {other:08x}"
        return self.past.gone_words(handle)

    def field(self, path: str) -> Field | None:
        """Returns a field of the command, to which a path such as `entry 2/hmac` leads; None if an
        earlier field is malformed.
        """
        fields = iter(dissection.fields_of_command(self.scene.buffer, self.scene.plain))
        found: Field | None = None
        for name in path.split("/"):
            found = next((it for it in fields if it.name == name), None)
        return found


Check = Callable[[Look], None]
