"""Compares a list of requested public functions with the crates, and with docs/REQUIREMENTS.md:

    python3 tests/common/public_calls.py ASKED PAGE FOLDER

ASKED lists the requested items, after its heading `== The crates` if it has one;
tests/program/required.txt describes the lines. PAGE has tables of the differences between that list
and the crates in FOLDER. Each requested item must exist in its crate by that name, unless PAGE
names a replacement, which must exist. Each difference that PAGE lists must be real. The program
prints a line for each fault. The status is 1 if there is a fault.
"""

import pathlib
import re
import sys
from collections.abc import Iterator
from dataclasses import dataclass, field

from tests.common.crate_names import Call, Crates

CRATES = "== The crates\n"
NAMES = ("asked for", "is", "why")
SHAPES = ("call", "asked for", "is", "why")
FAULTS = ("fault", "asked for", "is", "why")
PREMISES = ("call", "premise", "why")
LINES = ("crate", "asked for", "is", "why")
PARTS = ("crate", "parts", "why")
FAULT = re.compile(r"Result<.*, (\w+)>")
MEMORY = {"NoMemory", "Memory", "AllocError"}
SELF = re.compile(r"\((?:&mut |&)?self(?:, )?")
SPAN = re.compile(r"`([^`]+)`")
TABLE = re.compile(r"^\|(.+)\|\n\|[-|]+\|\n((?:\|.*\|\n)*)", re.M)


@dataclass
class Asked:
    """The requested items. Each dictionary belongs to a kind of line: `limits` to `lines`, and the
    others to the kind of the same name. A name in a dictionary begins with its crate.
    """

    limits: dict[str, int] = field(default_factory=dict)
    calls: dict[str, str] = field(default_factory=dict)
    types: dict[str, list[str]] = field(default_factory=dict)
    forms: dict[str, str] = field(default_factory=dict)
    fields: dict[str, list[str]] = field(default_factory=dict)
    premises: dict[str, list[str]] = field(default_factory=dict)
    faults: dict[str, list[str]] = field(default_factory=dict)
    memory: dict[str, list[str]] = field(default_factory=dict)

    def calls_of(self, crate: str) -> list[str]:
        """Returns the requested functions of a crate."""
        return [call for call in self.calls if call.startswith(f"{crate}::")]

    def add(self, kind: str, crate: str, name: str, more: str) -> None:
        """Adds a line of the list: its kind, its crate, its name, and the text after the colon."""
        path = f"{crate}::{name}" if name else crate
        match kind:
            case "lines":
                self.limits[crate] = int(name)
            case "call":
                self.calls[path] = more
            case "type":
                self.types[path] = more.split()
            case "form":
                self.forms[path] = more
            case "fields":
                self.fields[path] = more.split()
            case "premise":
                self.premises[path] = more.split(" ; ")
            case "faults":
                self.faults[path] = more.split()
            case "memory":
                self.memory[path] = [f"{crate}::{call}" for call in more.split()]
            case _:
                raise ValueError(f"not a kind of line: {kind}")


def read_asked(text: str) -> Asked:
    """Reads the list of requested items."""
    asked = Asked()
    for line in (text.partition(CRATES)[2] or text).splitlines():
        if not line or line.startswith("#"):
            continue
        front, _, more = line.partition(": ")
        kind, crate, *name = front.rstrip(":").split(maxsplit=2)
        asked.add(kind, crate, "".join(name), more)
    return asked


Row = tuple[str, ...]


def tables_of(text: str) -> dict[Row, list[Row]]:
    """Returns, for each table header of a page, the rows of all tables with this header."""
    tables: dict[Row, list[Row]] = {}
    for head, rows in TABLE.findall(text):
        cells = tuple(cell.strip() for cell in head.split("|"))
        for row in rows.splitlines():
            tables.setdefault(cells, []).append(tuple(c.strip() for c in row[1:-1].split("|")))
    return tables


def names_in(cell: str) -> list[str]:
    """Returns the names in a cell. A name without `::` belongs to the same crate or type as the
    name before it.
    """
    names: list[str] = []
    for name in SPAN.findall(cell):
        if "::" not in name and names:
            name = f"{names[-1].rpartition('::')[0]}::{name}"
        names.append(name)
    return names


class Comparison:
    """Compares the requested items, the crates and the page. Each method such as `names` yields the
    differences of one kind.
    """

    def __init__(self, asked: Asked, page: str, crates: Crates) -> None:
        self.asked = asked
        self.crates = crates
        self.tables = tables_of(page)
        self.others: dict[str, list[str]] = {}
        for row in self.rows(NAMES):
            names, others = names_in(row[0]), names_in(row[1])
            for place, name in enumerate(names[: len(others)]):
                self.others[name] = others if len(names) == 1 else [others[place]]
        self.known = [self.standing(call) for call in asked.calls]

    def rows(self, head: Row) -> list[Row]:
        """Returns the rows of all tables with this header."""
        return self.tables.get(head, [])

    def standing(self, name: str) -> str:
        """Returns the current name of a requested item: its replacement on the page or, if the page
        has none, the requested name.
        """
        if name in self.others:
            return self.others[name][0]
        owner, _, member = name.rpartition("::")
        return f"{self.others[owner][0]}::{member}" if owner in self.others else name

    def calls_in(self, cell: str) -> list[str]:
        """Returns the current names of the functions that a cell names. If the cell names only
        crates, returns the names of all requested functions of those crates.
        """
        if set(SPAN.findall(cell)) <= set(self.asked.limits):
            calls = [call for crate in SPAN.findall(cell) for call in self.asked.calls_of(crate)]
        else:
            calls = names_in(cell)
        return [self.standing(call) for call in calls]

    def call(self, name: str) -> Call | None:
        """Returns the function with this name, if it exists."""
        found = self.crates.find(name)
        return found.call if found else None

    def names(self) -> Iterator[str]:
        """Yields each name that is in the list of requested items or on the page, but not in the
        crates.
        """
        for name in [*self.asked.calls, *self.asked.types]:
            if not self.crates.find(self.standing(name)):
                yield f"{name}: neither as asked for nor by the page"
        for row in self.rows(NAMES):
            for name in names_in(row[0]):
                if name not in self.asked.calls and name not in self.asked.types:
                    yield f"{name}: the page says that it was asked for"
                if self.crates.find(name):
                    yield f"{name}: as asked for, and the page says otherwise"
            for name in names_in(row[1]):
                if not self.crates.find(name):
                    yield f"{name}: not there, as the page says"

    def plain(self, shape: str) -> str:
        """Replaces each requested type that is an alias by the type that it stands for."""
        for name in self.asked.types:
            found = self.crates.find(name)
            if found and found.alias.isidentifier():
                shape = re.sub(rf"\b{name.rpartition('::')[2]}\b", found.alias, shape)
        return shape

    def is_as_asked(self, call: Call, asked: str) -> bool:
        """Returns whether a function has the requested types, under their current names."""
        for name, others in self.others.items():
            old, new = name.rpartition("::")[2], others[0].rpartition("::")[2]
            asked = re.sub(rf"\b{old}\b", new, asked)
        shape = self.plain(SELF.sub("(", call.shape))
        return bool(re.fullmatch(re.escape(self.plain(asked)).replace("_", ".+") or ".*", shape))

    def shapes(self) -> Iterator[str]:
        """Yields the functions whose types are neither the requested ones nor those on the page."""
        told = {name: row for row in self.rows(SHAPES) for name in self.calls_in(row[0])}
        for name, asked in self.asked.calls.items():
            row, call = told.pop(self.standing(name), None), self.call(self.standing(name))
            if not call or (name in self.others and not row):
                continue
            if row and "".join(SPAN.findall(row[1])) not in asked:
                yield f"{name}: the page says that another shape was asked for"
            if row and asked and self.is_as_asked(call, asked):
                yield f"{name}: its shape is as asked for, and the page says otherwise"
            right = [call.shape] == SPAN.findall(row[2]) if row else self.is_as_asked(call, asked)
            if not right:
                yield f"{name}: its shape is {call.shape}"
        for name in told:
            yield f"{name}: the page says its shape, and it was not asked for"

    def cases_of(self, name: str) -> list[str]:
        """Returns the variants of all enums that replace a requested enum."""
        found = map(self.crates.find, self.others.get(name, [name]))
        return [case for one in found if one for case in one.cases]

    def cases(self) -> Iterator[str]:
        """Yields the enums whose variants are neither the requested ones nor those on the page."""
        told = {names_in(row[0])[0]: row for row in self.rows(FAULTS)}
        for name, asked in self.asked.types.items():
            row, cases = told.pop(name, None), self.cases_of(name)
            if asked and set(cases) != set(SPAN.findall(row[2]) if row else asked):
                yield f"{name}: its cases are {', '.join(cases)}"
            if row and set(SPAN.findall(row[1])) != set(asked):
                yield f"{name}: the page says that other cases were asked for"
            if row and set(cases) == set(asked):
                yield f"{name}: its cases are as asked for, and the page says otherwise"
        for name in told:
            yield f"{name}: the page says its cases, and it was not asked for"

    def premises(self) -> Iterator[str]:
        """Yields each `requires` clause of a function that neither the list nor the page contains,
        and each clause on the page that no function has, or that the list contains too.
        """
        told: dict[str, list[str]] = {}
        for row in self.rows(PREMISES):
            for name in self.calls_in(row[0]):
                told.setdefault(name, []).extend(SPAN.findall(row[1]))
        for asked, name in zip(self.asked.calls, self.known):
            call, clauses = self.call(name), told.pop(name, [])
            allowed = self.asked.premises.get(asked, [])
            premises = call.premises if call else ()
            for premise in premises:
                if not any(clause in premise for clause in [*clauses, *allowed]):
                    yield f"{name}: the page does not name its premise {premise}"
            for clause in clauses:
                if call and not any(clause in premise for premise in premises):
                    yield f"{name}: it has no premise {clause}"
                if any(clause in text or text in clause for text in allowed):
                    yield f"{name}: its premise {clause} was asked for"
        for name in told:
            yield f"{name}: the page names its premise, and it was not asked for"

    def forms(self) -> Iterator[str]:
        """Yields the types that are not what was requested: aliases of another type, structs or
        variants with other fields.
        """
        for name, asked in self.asked.forms.items():
            found = self.crates.find(name)
            form = (found.call.shape if found.call else found.alias) if found else "missing"
            if form != asked:
                yield f"{name}: it is {form}, not {asked}"
        for name, fields in self.asked.fields.items():
            found = self.crates.find(self.standing(name))
            if not found or set(found.fields) != set(fields):
                yield f"{name}: its fields are {', '.join(found.fields) if found else 'missing'}"

    def faults_of(self, name: str) -> set[str]:
        """Returns the faults of a function: the variants of its error type, or its name if it has
        none.
        """
        call = self.call(self.standing(name))
        kind = FAULT.search(call.shape) if call else None
        if not kind:
            return set()
        found = self.crates.find(f"{self.standing(name).partition('::')[0]}::{kind[1]}")
        return set(found.cases) if found and found.cases else {kind[1]}

    def faults(self) -> Iterator[str]:
        """Yields the crates whose functions have other faults than the requested ones, and the
        functions that may fail because memory runs out, although they must not.
        """
        for crate, faults in self.asked.faults.items():
            given = {fault for call in self.asked.calls_of(crate) for fault in self.faults_of(call)}
            if given != set(faults):
                yield f"{crate}: its faults are {', '.join(sorted(given)) or 'none'}"
        for crate, calls in self.asked.memory.items():
            for name in self.asked.calls_of(crate):
                if name not in calls and self.faults_of(name) & MEMORY:
                    yield f"{name}: it may fail because memory runs out"

    def lines(self) -> Iterator[str]:
        """Yields the crates that do not exist, and those that have more lines than the list allows,
        unless the page says exactly how many. A row of the page may name further crates, whose
        lines count too.
        """
        told = {SPAN.findall(row[0])[0]: row for row in self.rows(LINES)}
        for name, limit in self.asked.limits.items():
            names = SPAN.findall(told[name][0]) if name in told else [name]
            lines = sum(self.crates.crate(part).lines for part in names)
            asked, wanted = numbers_of(told[name]) if name in told else (limit, 0)
            if not lines:
                yield f"{name}: there is no crate of that name"
            if asked != limit:
                yield f"{name}: the page says that {asked} lines were asked for, not {limit}"
            if lines > limit and lines != wanted:
                yield f"{name}: it has {lines} lines, for {limit}"
            if lines <= limit and name in told:
                yield f"{name}: the page says that it has more than {limit} lines"
        for row in self.rows(PARTS):
            for name in SPAN.findall(row[0] + row[1]):
                if not self.crates.crate(name).lines:
                    yield f"{name}: there is no crate of that name"


def numbers_of(row: Row) -> tuple[int, int]:
    """Returns the two numbers of lines that a row of the table states: requested and present."""
    return int(row[1].replace(",", "")), int(row[2].replace(",", ""))


def main(asked_path: str, page_path: str, folder: str) -> int:
    """Prints the differences, and returns the status."""
    asked = read_asked(pathlib.Path(asked_path).read_text("utf-8"))
    page = pathlib.Path(page_path).read_text("utf-8")
    compared = Comparison(asked, page, Crates(pathlib.Path(folder)))
    methods = [compared.names, compared.shapes, compared.cases, compared.premises]
    methods += [compared.forms, compared.faults, compared.lines]
    faults = [fault for method in methods for fault in method()]
    for fault in faults:
        print(fault)
    calls, types, crates = len(asked.calls), len(asked.types), len(asked.limits)
    print(f"{calls} calls, {types} types, {crates} crates asked for; {len(faults)} differ")
    return 1 if faults else 0


if __name__ == "__main__":
    sys.exit(main(*sys.argv[1:]))
