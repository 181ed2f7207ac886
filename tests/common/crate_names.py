"""Finds the public names of a crate, with a small tolerant parser of crates/CRATE/src/*.rt.

A name belongs to an item, such as `authorize` or `Machine`, or to a member of a type or trait, such
as `Machine::execute` or `Keep::fixed`. Names of modules may precede it. An item counts if its
module is public, or if a `pub use` re-exports it, even from another crate. The parser relies on the
layout that `rt fmt` makes: items begin in the first column, members in the fifth.
"""

import pathlib
import re
from collections.abc import Iterator
from dataclasses import dataclass, field

COMMENT = re.compile(r"//[^\n]*")
ITEM = re.compile(
    r"^(?P<public>pub )?(?:(?:const|unsafe) )?"
    r"(?P<kind>fn|struct|enum|trait|type|const|static) (?P<name>\w+)",
    re.M,
)
BLOCK = re.compile(
    r"^(?:pub )?(?P<kind>impl|trait)\b(?P<head>[^{;]*)\{\n(?P<body>.*?)^\}", re.M | re.S
)
METHOD = re.compile(r"^    (?P<public>pub )?(?:const )?fn (?P<name>\w+)", re.M)
ASSOCIATED = re.compile(r"^    type (?P<name>\w+)", re.M)
CASES = re.compile(r"^pub enum (?P<name>\w+)[^{;]*\{\n(?P<body>.*?)^\}", re.M | re.S)
CASE = re.compile(r"^    (\w+)(?: \{(.*?)\})?", re.M | re.S)
STRUCT = re.compile(r"^pub struct (?P<name>\w+)[^{;]*\{\n(?P<body>.*?)^\}", re.M | re.S)
FIELD = re.compile(r"^    pub (\w+):", re.M)
CASE_FIELD = re.compile(r"(\w+): ")
ALIAS = re.compile(r"^pub type (?P<name>\w+)(?:<[^=]*>)? = (?P<text>[^;]+);", re.M)
MODULE = re.compile(r"^pub mod (\w+);", re.M)
USE = re.compile(r"^pub use ([^;]+);", re.M)
CLAUSE = re.compile(r"\s*(requires|ensures)\*?(?: \w+)? (?=\{)")
LIFETIME = re.compile(r"'\w+(?:, | )?")
PAIRS = {"(": ")", "{": "}", "[": "]", "<": ">"}


@dataclass(frozen=True)
class Call:
    """The types that a function takes and returns, and the clauses that it requires."""

    shape: str
    premises: tuple[str, ...]


@dataclass
class Item:
    """An item of a crate, with its members if it is a type or trait."""

    module: str
    name: str
    call: Call | None = None
    members: dict[str, Call | None] = field(default_factory=dict)
    cases: dict[str, list[str]] = field(default_factory=dict)
    fields: list[str] = field(default_factory=list)
    alias: str = ""


@dataclass(frozen=True)
class Found:
    """What a name refers to: its signature if it is a function, its variants if it is an enum, its
    fields if it is a struct or a variant, and the type that an alias stands for.
    """

    call: Call | None
    cases: tuple[str, ...] = ()
    fields: tuple[str, ...] = ()
    alias: str = ""


def closing(text: str, start: int) -> int:
    """Returns the offset after the bracket that closes the bracket at `start`."""
    opens, closes = text[start], PAIRS[text[start]]
    depth = 0
    for place in range(start, len(text)):
        if text[place] == opens:
            depth += 1
        elif text[place] == closes and text[place - 1] != "-":
            depth -= 1
            if depth == 0:
                return place + 1
    return len(text)


def plain(text: str) -> str:
    """Returns a type or a clause without lifetimes, and with single spaces."""
    return " ".join(LIFETIME.sub("", text).replace("<>", "").split())


def parts_of(text: str) -> Iterator[str]:
    """Yields the items of a comma-separated list. Commas within brackets do not separate."""
    start = place = 0
    while place < len(text):
        if text[place] in PAIRS:
            place = closing(text, place)
            continue
        if text[place] == ",":
            yield text[start:place]
            start = place + 1
        place += 1
    if text[start:].strip():
        yield text[start:]


def type_of(parameter: str) -> str:
    """Returns the type of a parameter, without its name; `self` stays unchanged."""
    name, colon, kind = parameter.partition(":")
    return plain(kind if colon and "self" not in name else parameter)


def premises_of(text: str, start: int) -> Iterator[str]:
    """Yields the `requires` clauses of a function. The first one begins at `start`."""
    while clause := CLAUSE.match(text, start):
        start = closing(text, clause.end())
        if clause[1] == "requires":
            yield plain(text[clause.end() + 1 : start - 1])


def call_at(text: str, start: int) -> Call:
    """Returns the signature of the function whose name ends at `start`."""
    if text[start] == "<":
        start = closing(text, start)
    end = closing(text, start)
    shape = f"({', '.join(map(type_of, parts_of(text[start + 1 : end - 1])))})"
    returns = re.compile(r" -> (.+?)(?=;\n|;$| \{|\n)").match(text, end)
    if returns:
        shape += f" -> {plain(returns[1])}"
        end = returns.end()
    return Call(shape, tuple(premises_of(text, end)))


def owner_of(kind: str, head: str) -> str:
    """Returns the type or trait to which a block's members belong; empty for an impl of a trait."""
    head = head.strip()
    if kind == "impl" and head.startswith("<"):
        head = head[closing(head, 0) :].strip()
    name = re.match(r"\w+", head)
    return name[0] if name and (kind == "trait" or " for " not in head) else ""


def uses_of(text: str, before: str = "") -> Iterator[str]:
    """Yields the paths that a `pub use` re-exports, one by one."""
    text = text.strip()
    if "{" not in text:
        yield before + text
        return
    front, back = text.split("{", 1)
    for part in parts_of(back[: back.rindex("}")]):
        yield from uses_of(part, before + front)


class Crates:
    """The crates of a repository. Each is read once, when it is first used."""

    def __init__(self, top: pathlib.Path) -> None:
        self.folder = top / "crates"
        self.read: dict[str, Crate] = {}

    def crate(self, name: str) -> "Crate":
        """Returns the crate with this name. If there is no such crate, the result has no names."""
        if name not in self.read:
            self.read[name] = Crate(name, self.folder / name / "src")
        return self.read[name]

    def find(self, path: str) -> Found | None:
        """Returns the public item at a path, such as `tpm_machine::Machine::run`, or None."""
        name, *words = path.split("::")
        crate = self.crate(name)
        modules = []
        while len(words) > 1 and words[0].islower():
            modules.append(words.pop(0))
        if not words:
            return None
        item, *members = words
        for home in ["::".join(modules)] if modules else sorted(crate.modules):
            found = self.find_in(crate, home, item, members) if home in crate.modules else None
            if found:
                return found
        return None

    def find_in(self, crate: "Crate", module: str, name: str, members: list[str]) -> Found | None:
        """Returns the item that a module defines or re-exports with this name, even if the module
        is not public.
        """
        for item in crate.items:
            if (item.module, item.name) == (module, name):
                return member_of(item, members)
        path = crate.uses.get(module, {}).get(name)
        if not path:
            return None
        other, *words, last = path.split("::")
        if other != crate.name:
            return self.find("::".join([path, *members]))
        return self.find_in(crate, "::".join(words), last, members)


class Crate:
    """The items of a crate, its public modules, and its re-exports."""

    def __init__(self, name: str, source: pathlib.Path) -> None:
        self.name = name
        self.source = source
        self.modules = {""}
        self.items: list[Item] = []
        self.uses: dict[str, dict[str, str]] = {}
        self.lines = 0
        texts = {}
        for path in sorted(source.rglob("*.rt")):
            text = path.read_text("utf-8")
            self.lines += text.count("\n")
            module = "::".join(path.relative_to(source).with_suffix("").parts)
            texts["" if module in ("lib", "main") else module] = COMMENT.sub("", text)
        for module, text in texts.items():
            self.add_items(text, module)
            self.add_uses(text, module)
        for text in texts.values():
            self.add_members(text)

    def add_items(self, text: str, module: str) -> None:
        """Adds the public items of a file, with the variants of each enum, the public fields of
        each struct, and the type that each alias stands for.
        """
        items = {}
        for found in ITEM.finditer(text):
            if found["public"] or (found["name"] == "main" and not module):
                call = call_at(text, found.end()) if found["kind"] == "fn" else None
                items[found["name"]] = Item(module, found["name"], call)
        for found in CASES.finditer(text):
            cases = {name: CASE_FIELD.findall(body) for name, body in CASE.findall(found["body"])}
            items[found["name"]].cases = cases
        for found in STRUCT.finditer(text):
            items[found["name"]].fields = FIELD.findall(found["body"])
        for found in ALIAS.finditer(text):
            items[found["name"]].alias = plain(found["text"])
        self.items += items.values()

    def add_uses(self, text: str, module: str) -> None:
        """Adds the public modules that a file declares, and the names that it re-exports, with
        their paths.
        """
        inside = f"{module}::" if module else ""
        self.modules.update(inside + found for found in MODULE.findall(text))
        passed = self.uses.setdefault(module, {})
        for path in (path for use in USE.findall(text) for path in uses_of(use)):
            path, _, other = path.partition(" as ")
            name = other or path.rpartition("::")[2]
            passed[name] = self.whole_path(path, inside)

    def whole_path(self, path: str, inside: str) -> str:
        """Returns a path that begins with its crate. `inside` is the module prefix of the file that
        has the path.
        """
        first, _, rest = path.partition("::")
        if first == "crate":
            return f"{self.name}::{rest}"
        beside = self.source.joinpath(*inside.split("::")[:-1], first)
        if beside.with_suffix(".rt").exists() or beside.is_dir():
            return f"{self.name}::{inside}{path}"
        return path

    def add_members(self, text: str) -> None:
        """Adds the public members in a file to the types and traits that they belong to."""
        for block in BLOCK.finditer(text):
            owner = owner_of(block["kind"], block["head"])
            for item in (item for item in self.items if item.name == owner):
                for found in ASSOCIATED.finditer(block["body"]):
                    item.members[found["name"]] = None
                for found in METHOD.finditer(block["body"]):
                    if found["public"] or block["kind"] == "trait":
                        item.members[found["name"]] = call_at(block["body"], found.end())


def member_of(item: Item, members: list[str]) -> Found | None:
    """Returns the item itself, or the member or variant that `members` names."""
    if not members:
        return Found(item.call, tuple(item.cases), tuple(item.fields), item.alias)
    name = members[0]
    if name in item.members:
        return Found(item.members[name])
    return Found(None, (), tuple(item.cases[name])) if name in item.cases else None
