#!/usr/bin/env python3
"""Tries the wrong bodies (mutants) under tests/wrong/. Each wrong body changes the meaning of one
function or definition, and the prover must refuse it. The gate tries only the wrong bodies in the
must-fail/ folders of crates. Those under tests/wrong/ are tried before a piece of work is declared done;
docs/gate.json says how many were known to be refused, and when.

    tools/soak/wrong_bodies.py                       all wrong bodies under tests/wrong/
    tools/soak/wrong_bodies.py tpm_pcr               the wrong bodies of one crate, or of several
    tools/soak/wrong_bodies.py --left [CRATE..]      the wrong bodies of crates that changed since all
                                                     of theirs were refused
    tools/soak/wrong_bodies.py --known               prints how many are known to be refused; tries none
    tools/soak/wrong_bodies.py --apply [CRATE..]     only checks whether each applies; needs no rt

The crates need the libraries that `rt ci` built here. If a source is newer, `rt ci` first proves them
in a copy without wrong bodies. Then the wrong bodies of each crate are tried. The number of crates
that are tried at the same time is JOBS or, by default, the number of processors.

The prover checks each function against the contracts of its callees, and reports which functions
have failing goals of their own. Therefore wrong bodies of different functions share one check of
only these functions: a body is refused if a function that it changes has a failing goal. A wrong
body is tried by itself if the shared check does not decide it, or if it changes a constant or a
definition. Then the functions that name the constant are checked and, if these are proved
nevertheless, the whole crate. Each check continues from an earlier one, and the first from the
results in the crate's out/.

If all wrong bodies of a crate are refused, tests/wrong/tried.json stores a checksum of what decides
it: the wrong bodies, the crate, and the sources and definitions of the crates below.

It prints a line for each body, and at the end `N of M wrong bodies refused`. The status is 0 if all
are refused. It is 1 if a body is not refused, or is bad. A body is bad if it cannot be applied,
compiled or parsed, or is refused only because a proof file names something that the body removed.
Such a refusal shows nothing about a contract. This tool needs `rt`.
"""

from __future__ import annotations

import argparse
import concurrent.futures
import contextlib
import dataclasses
import datetime
import functools
import hashlib
import itertools
import json
import os
import pathlib
import re
import shutil
import subprocess
import sys
import tempfile
import threading
from collections.abc import Iterable, Iterator

from functions import PLACE, Function, functions_of, is_fault

TOP = pathlib.Path(__file__).resolve().parents[2]
SOURCES = ["src", "specs", "proofs"]
TRIED = TOP / "tests" / "wrong" / "tried.json"
HEADING = re.compile(r"^## (.+)\n", re.MULTILINE)
ITEM = re.compile(
    r"\s*(?:pub(?:\([a-z ]+\))? )?(?:const|static|struct|enum|type|macro_rules!) (\w+)"
)
# the prover's messages about a text that it cannot parse, without the quoted names
UNREAD = re.compile(
    r"is not in scope|has no field|is no name|operand is missing|expected the end|cannot continue"
)
# The borrow checker does not cover some functions. Such a function is not proved, whatever its body
# does.
COMPILER_ERROR = re.compile(r"\berror\[[\w-]+\]|the borrow checker does not cover this function")
# If a proof file names something that an edit removed, or cites a proof that does, the refusal
# shows nothing about a contract.
GONE = re.compile(
    r"(?:note: )?(?:\./)?proofs/.*(?:has no field|is not in scope|has no `|was not admitted|was rejected)"
)
LIMIT = re.compile(r"ran out of|outgrew the memory limit|stopped at the step limit")


def said_by(folder: pathlib.Path, *words: str) -> subprocess.CompletedProcess[str]:
    """Runs a command in a folder and captures its output as one text."""
    return subprocess.run(
        words,
        cwd=folder,
        text=True,
        errors="replace",
        stdin=subprocess.DEVNULL,
        stdout=subprocess.PIPE,
        stderr=subprocess.STDOUT,
        check=False,
    )


@functools.cache
def kit() -> pathlib.Path:
    """Returns the folder of the toolchain, which contains the page that `rt doc` names."""
    return pathlib.Path(said_by(TOP, "rt", "doc").stdout.strip()).parent


class BadEdit(Exception):
    """The exception for a wrong body that cannot be tried, or whose refusal shows nothing about a
    contract.
    """


@dataclasses.dataclass(frozen=True)
class Turn:
    """A line of a file and the line that replaces it."""

    file: str
    old: str
    new: str


@dataclasses.dataclass(frozen=True)
class Edit:
    """A wrong body as it is written in its file, under a heading that describes what is wrong."""

    name: str
    text: str

    def turns(self) -> tuple[Turn, ...]:
        """Returns the replacements: after each line `file: ` there are pairs of lines `old: ` and
        `new: `.
        """
        turns, file, old = [], "", ""
        for line in self.text.split("\n"):
            word, _, rest = line.partition(":")
            if word == "file":
                file = rest.strip()
            elif word == "old":
                old = rest.removeprefix(" ")
            elif word == "new":
                turns.append(Turn(file, old, rest.removeprefix(" ")))
        return tuple(turns)


def edits_of(crate: str) -> list[Edit]:
    """Returns the wrong bodies of a crate."""
    path = TOP / "tests" / "wrong" / f"{crate}.edits"
    if not path.exists():
        return []
    _, *parts = HEADING.split(path.read_text(encoding="utf-8"))
    return [Edit(words.replace(" ", "_"), text) for words, text in zip(parts[::2], parts[1::2])]


@dataclasses.dataclass(frozen=True)
class WrongBody:
    name: str
    turns: tuple[Turn, ...]
    # the functions that the edit changes; empty if it also changes something outside of functions
    functions: frozenset[Function]
    # if that set is empty, the functions that name a changed constant or type
    naming: frozenset[Function]

    def to_check(self) -> frozenset[Function]:
        """Returns the functions that are checked first for this body. An empty set means the whole
        crate.
        """
        return self.functions or self.naming


Group = list[WrongBody]
# the number of refused wrong bodies, and the groups that have yet to be tried
Tried = tuple[int, list[Group]]


class Crate:
    """A crate in its own folder, with the libraries that were proved in a copy of the
    repository.
    """

    def __init__(self, proved: pathlib.Path, name: str, room: pathlib.Path) -> None:
        self.name, self.proved, self.room = name, proved, room / name
        self.folder = proved / "crates" / name
        # the folder where the toolchain stores the results of a check for its next command
        self.place = TOP / "crates" / name / "out" / "incremental"
        # the folder with the results of the latest check of some functions, from which others can
        # continue, and the messages of the first check
        self.kept = self.place
        self.said: list[str] = []
        # the folder with the results of a check of the unchanged crate, which is made when it is
        # first needed
        self.whole = self.room / "whole"
        self.is_keeping = threading.Lock()
        self.texts = self._texts_of_functions()
        self.room.mkdir()

    def size(self) -> int:
        """Returns the size of the crate's text, in bytes."""
        files = itertools.chain(*((self.folder / part).rglob("*.*") for part in SOURCES))
        return sum(it.stat().st_size for it in files)

    def _texts_of_functions(self) -> dict[Function, str]:
        texts = {}
        for path in sorted(self.folder.glob("src/**/*.rt")):
            text = path.read_text(encoding="utf-8")
            file = path.relative_to(self.folder).as_posix()
            lines = text.split("\n")
            texts.update({it: it.text_in(lines) for it in functions_of(file, text)})
        return texts

    def _words(self) -> list[str]:
        """Returns the command that checks the crate."""
        below = [it for it in with_below([self.name]) if it != self.name]
        rlibs = {it: self.proved / "crates" / it / "out" / "rlib" for it in below}
        is_program = (self.folder / "src" / "main.rt").exists()
        root = "src/main.rt" if is_program else "src/lib.rt"
        words = [str(kit() / "bin" / "rattle"), "check", "--crate-name", self.name, root]
        if f"{self.name} staticlib" in (line.partition(":")[0] for line in rows()):
            words += ["--crate-type", "staticlib"]
        for it in ["std", *uses()[self.name]]:
            words += ["--extern", f"{it}={rlibs.get(it, kit() / 'rlibs') / it}.rlib"]
        for folder in [kit() / "rlibs", *rlibs.values()]:
            words += ["-L", f"dependency={folder}"]
        words += ["--antt-project", str(kit() / "rattle" / "logic" / "antt-project.json")]
        return [*words, "--logic-built", str(kit() / "logic_built"), "--jobs", "1"]

    def _checked_in(
        self, folder: pathlib.Path, kept: pathlib.Path, paths: Iterable[str]
    ) -> tuple[int, list[str]]:
        """Checks the crate's text in a folder; if paths are given, checks only the parts that they
        name. Returns the exit status and the message lines.
        """
        only = [word for path in sorted(set(paths)) for word in ("--only", path)]
        ran = said_by(folder, *self._words(), *only, "--incremental", str(kept))
        return ran.returncode, ran.stdout.split("\n")

    def _paths(self, bodies: list[WrongBody]) -> list[str]:
        """Returns the paths of the functions to check for these bodies, as reported by an earlier
        check, if any. An empty list means the whole crate.
        """
        functions: set[Function] = set().union(*(body.to_check() for body in bodies))
        paths = [*itertools.chain(*([*it.told_in(self.said)] or [it.path()] for it in functions))]
        return paths if all(paths) and all(body.to_check() for body in bodies) else []

    def wrong_body(self, edit: Edit) -> WrongBody:
        turns = edit.turns()
        functions: set[Function] = set()
        naming: set[Function] = set()
        is_in_functions = True
        for turn in turns:
            text = (self.folder / turn.file).read_text(encoding="utf-8")
            row = text.count("\n", 0, max(text.find(turn.old), 0))
            of_it = [it for it in self.texts if it.file == turn.file and it.first <= row < it.end]
            functions.update(of_it)
            if not of_it:
                is_in_functions = False
                naming |= self._naming(turn.file, text.split("\n")[: row + 1])
        if is_in_functions:
            return WrongBody(edit.name, turns, frozenset(functions), frozenset())
        return WrongBody(edit.name, turns, frozenset(), frozenset(naming))

    def _naming(self, file: str, lines: list[str]) -> set[Function]:
        """Returns the functions that name an item or belong to it. For a file in src/, the item is
        the last one in `lines`, the first lines of the file. For a file in specs/, it is any of the
        definitions in the file that clauses use.
        """
        if file.startswith("src/"):
            names = [match[1] for line in lines if (match := ITEM.match(line))][-1:]
        else:
            module = file.removeprefix("specs/").removesuffix(".antt").replace("/", ".")
            brought = re.compile(rf"ghost use Rattle\.{self.name}\.specs\.{module}\.{{([^}}]*)}}")
            files = {it.file for it in self.texts}
            texts = [(self.folder / it).read_text(encoding="utf-8") for it in sorted(files)]
            names = [
                it for text in texts for row in brought.findall(text) for it in row.split(", ")
            ]
        if not names:
            return set()
        named = re.compile(rf"(?<!\w)(?:{'|'.join(map(re.escape, names))})(?!\w)")
        return {
            it
            for it, text in self.texts.items()
            if named.search(text) or (it.owner or "").startswith(tuple(names))
        }

    def begin(self, group: list[WrongBody], others: list[WrongBody]) -> tuple[int, list[str]]:
        """Makes the first check, on a copy with the wrong bodies of a group. Checks the functions
        of these and of the other bodies. Returns the exit status and the message lines.
        """
        every = [*group, *others]
        with self._turned(group) as folder:
            kept = self._copied(self.kept, folder.parent / "kept")
            status, said = self._checked_in(folder, kept, self._paths(every))
            if status == 2:  # A name fits more than one function.
                modules = {it.module() for body in every for it in body.to_check()}
                paths = modules if all(modules) else set()
                status, said = self._checked_in(folder, kept, paths)
            self._go_on_from(kept)
        self.said = said
        return status, said

    def check(self, bodies: list[WrongBody], is_whole: bool) -> tuple[int, list[str]]:
        """Checks a copy with these wrong bodies, either the whole crate or only their functions.
        Returns the exit status and the message lines.
        """
        start = self.keep() if is_whole else self.kept
        with self._turned(bodies) as folder:
            kept = self._copied(start, folder.parent / "kept")
            paths = [] if is_whole else self._paths(bodies)
            status, said = self._checked_in(folder, kept, paths)
            if all(body.functions for body in bodies):
                # This check may have proved functions that were mutated in the previous check.
                self._go_on_from(kept)
            return status, said

    def keep(self) -> pathlib.Path:
        """Checks the whole unchanged crate, only once, and returns the folder with the results."""
        with self.is_keeping:
            if not self.whole.exists():
                kept = self._copied(self.kept, self.room / "as-it-stands")
                status, said = self._checked_in(self.folder, kept, [])
                if status:
                    print("\n".join(said))
                    raise SystemExit(f"{self.name} is not proved as it stands.")
                kept.rename(self.whole)
                self.said = self.said or said
        return self.whole

    def leave(self) -> None:
        """Stores the results of the latest check for the toolchain's commands, and for the next
        run.
        """
        if self.kept != self.place and self.kept.exists():
            self.place.parent.mkdir(exist_ok=True)
            made = self._copied(self.kept, self.place.with_name(f"{self.place.name}-{os.getpid()}"))
            shutil.rmtree(self.place, ignore_errors=True)
            made.rename(self.place)

    def _go_on_from(self, kept: pathlib.Path) -> None:
        """Makes the next check start from these results of an earlier check, if they exist."""
        if kept.exists():
            self.kept = kept.rename(self.room / f"kept-by-{kept.parent.name}")

    @staticmethod
    def _copied(start: pathlib.Path, kept: pathlib.Path) -> pathlib.Path:
        """Copies the results of a check, if they exist, to a folder. Returns that folder."""
        if start.exists():
            shutil.copytree(start, kept, copy_function=linked)
        return kept

    @contextlib.contextmanager
    def _turned(self, bodies: list[WrongBody]) -> Iterator[pathlib.Path]:
        """Yields a copy of the crate with these wrong bodies."""
        texts = self._texts_with([turn for body in bodies for turn in body.turns])
        with tempfile.TemporaryDirectory(dir=self.room) as place:
            folder = pathlib.Path(place) / "turned"
            copy_parts(self.folder, folder)
            for file, text in texts.items():
                (folder / file).write_text(text, encoding="utf-8")
            yield folder

    def _texts_with(self, turns: list[Turn]) -> dict[str, str]:
        return turned_texts(self.folder, turns)


def turned_texts(folder: pathlib.Path, turns: Iterable[Turn]) -> dict[str, str]:
    """Returns the files of a crate that these edits change, with their new texts."""
    texts: dict[str, str] = {}
    for turn in turns:
        text = texts.get(turn.file) or (folder / turn.file).read_text(encoding="utf-8")
        if text.count(turn.old) != 1:
            raise BadEdit(f"{turn.file} does not have this text once: {turn.old}")
        texts[turn.file] = text.replace(turn.old, turn.new)
    if not texts:
        raise BadEdit("it has no pair of old: and new:")
    return texts


def copy_parts(start: pathlib.Path, folder: pathlib.Path) -> None:
    """Copies the text of a crate, and the files that are needed to run its program."""
    folder.mkdir(parents=True)
    for it in start.iterdir():
        if it.name in SOURCES:
            shutil.copytree(it, folder / it.name)
        elif it.is_file():
            shutil.copy(it, folder)


def lent(one: str, other: str) -> None:
    """Links a file that nobody modifies, or copies it if it cannot be linked."""
    try:
        os.link(one, other)
    except OSError:
        shutil.copy2(one, other)


def linked(one: str, other: str) -> None:
    """Copies a file that a check stored. A file with a proof is linked instead, because a check
    replaces such a file and never writes to it.
    """
    if one.endswith(".oantt"):
        lent(one, other)
    else:
        shutil.copy2(one, other)


def unread_in(said: list[str]) -> str | None:
    """Returns the message line about a text that cannot be compiled or parsed, or None."""
    for line in said:
        place = PLACE.match(line)
        words = re.sub(r"`[^`]*`", "", place[3]) if place else ""
        in_text = place and not place[1].startswith("proofs/") and "error" in words
        if COMPILER_ERROR.search(line) or (in_text and UNREAD.search(words)):
            return line
    return None


def is_not_proved(status: int, said: list[str]) -> bool:
    """Returns whether a check parsed all texts, but failed because something is not proved."""
    is_told = any(it.startswith(("logic=not-proved", "only=")) for it in said)
    return status == 1 and is_told and not unread_in(said)


def is_of_a_contract(said: list[str]) -> bool:
    """Returns whether a refusal shows something about a contract, and not merely that a proof file
    uses a removed name.
    """
    told = [line for line in said if is_fault(line)]
    return not told or any(not GONE.match(line) for line in told)


def groups_of(bodies: list[WrongBody]) -> list[Group]:
    """Divides these bodies into groups; no two bodies of a group change the same function."""
    groups: list[tuple[set[Function], Group]] = []
    for body in sorted(bodies, key=lambda it: not it.functions):
        open_to_it = (it for it in groups if it[0] and not it[0] & body.functions)
        group = next(open_to_it, None) if body.functions else None
        if group is None:
            group = (set(), [])
            groups.append(group)
        group[0].update(body.functions)
        group[1].append(body)
    return [group for _, group in groups]


def refusal_alone(crate: Crate, body: WrongBody) -> str:
    """Tries a wrong body by itself, and returns how it is refused."""
    status, said = crate.check([body], is_whole=not body.to_check())
    if body.to_check() and not is_not_proved(status, said):
        status, said = crate.check([body], is_whole=True)
    told = next((line for line in said if is_fault(line) and not GONE.match(line)), "")
    if is_not_proved(status, said):
        if not is_of_a_contract(said):
            raise BadEdit(
                "only a proof file names what it takes away: keep the names, turn a value"
            )
        return told
    if status == 3 and any(LIMIT.search(line) for line in said):
        return f"only by a limit of the prover: {told}"
    raise BadEdit("NOT REFUSED" if status == 0 else unread_in(said) or f"status {status}")


def refusals_told(group: Group, status: int, said: list[str]) -> dict[WrongBody, str]:
    """Returns the bodies that a check of the whole group refuses, with the messages. The result is
    empty if the check does not show which bodies are refused.
    """
    if not is_not_proved(status, said):
        return {}
    # If a changed function is proved, it may have no contract. Then other functions may fail
    # because of the change.
    if any(it.is_proved_in(said) for body in group for it in body.functions):
        return {}
    counted = [line for line in said if not GONE.match(line)]
    told = {body: [it.fails_in(counted) for it in body.functions] for body in group}
    return {body: next(filter(None, lines)) for body, lines in told.items() if any(lines)}


def tell(crate: Crate, body: WrongBody, line: str) -> None:
    print(f"{crate.name}/{body.name}: refused, as it must be: {line[:160]}", flush=True)


def left_of(crate: Crate, group: Group, refused: dict[WrongBody, str]) -> Tried:
    """Prints the bodies of a group that one check refused. Returns their number, and the remaining
    bodies in groups.
    """
    for body, line in refused.items():
        tell(crate, body, line)
    left = [body for body in group if body not in refused]
    half = 0 if refused else len(left) // 2
    return len(refused), [it for it in (left[:half], left[half:]) if it]


def try_group(crate: Crate, group: Group) -> Tried:
    """Tries a group with one check."""
    if len(group) == 1:
        return try_alone(crate, group[0])
    try:
        refused = refusals_told(group, *crate.check(group, is_whole=False))
    except BadEdit:
        refused = {}
    return left_of(crate, group, refused)


def try_alone(crate: Crate, body: WrongBody) -> Tried:
    try:
        line = refusal_alone(crate, body)
    except BadEdit as why:
        print(f"{crate.name}/{body.name}: NOT REFUSED OR BAD: {why}", flush=True)
        return 0, []
    tell(crate, body, line)
    return 1, []


def name_in(line: str) -> str:
    """Returns the name of the crate in a line of crates.txt, or ""."""
    return "" if line.startswith("#") else line.partition(":")[0].partition(" ")[0]


@functools.cache
def rows() -> list[str]:
    """Returns the lines of crates.txt."""
    return (TOP / "crates.txt").read_text(encoding="utf-8").split("\n")


@functools.cache
def uses() -> dict[str, list[str]]:
    """Returns the libraries that each crate of this repository uses, according to its line in
    crates.txt.
    """
    return {name_in(line): line.partition(":")[2].split() for line in rows() if name_in(line)}


def with_below(names: list[str]) -> list[str]:
    """Returns these crates and those that they use, in the order of crates.txt."""
    known, left, found = uses(), list(names), set()
    while left:
        name = left.pop()
        if name in known and name not in found:
            found.add(name)
            left += known[name]
    return [name for name in known if name in found]


def lay(room: pathlib.Path, names: list[str]) -> None:
    """Makes a repository with these crates in a folder, without tests and wrong bodies."""
    (room / "crates").mkdir(parents=True)
    shutil.copy(TOP / "HANDLES", room)
    mine = [line for line in rows() if name_in(line) in names]
    (room / "crates.txt").write_text("\n".join([*mine, ""]), encoding="utf-8")
    subprocess.run(["git", "init", "--quiet"], cwd=room, check=True)
    for name in names:
        copy_parts(TOP / "crates" / name, room / "crates" / name)


def are_built(names: list[str]) -> bool:
    """Returns whether these crates are built in this repository, from the current sources."""
    script = '. tools/lib/proved.sh && are_built "$@"'
    return said_by(TOP, "sh", "-c", script, "sh", *names).returncode == 0


def take_built(room: pathlib.Path, names: list[str]) -> None:
    """Copies the built libraries of these crates from this repository to another one."""
    for name in names:
        rlib = pathlib.Path("crates", name, "out", "rlib")
        if (TOP / rlib).exists():
            shutil.copytree(TOP / rlib, room / rlib, copy_function=lent)


def prove(room: pathlib.Path) -> None:
    """Proves all crates of a repository, or reuses the proofs that the kit has stored."""
    ran = said_by(room, "sh", str(TOP / "tools" / "lib" / "rt_ci.sh"))
    if ran.returncode:
        print(ran.stdout)
        raise SystemExit("A crate is not proved as it stands, so no wrong body says anything.")


@contextlib.contextmanager
def files_in_memory(number: int) -> Iterator[None]:
    """Makes this number of simultaneous checks write their files to a folder in memory if they fit,
    or to TMPDIR if that is set.
    """
    script = f". tools/lib/memory.sh && folder_for_proofs {number}"
    made = "" if os.environ.get("TMPDIR") else said_by(TOP, "sh", "-c", script).stdout.strip()
    if not os.path.isdir(made):
        yield
        return
    os.environ["TMPDIR"] = made
    try:
        yield
    finally:
        del os.environ["TMPDIR"]
        shutil.rmtree(made)


def checksum(name: str) -> str:
    """Returns a checksum of what decides whether the wrong bodies of a crate are refused. The proofs
    of the crates below decide nothing.
    """
    found = hashlib.sha256()
    folders = [TOP / "crates" / name / "proofs"]
    for crate in with_below([name]):
        folders += [TOP / "crates" / crate / part for part in SOURCES if part != "proofs"]
    files = [it for folder in folders for it in folder.rglob("*") if it.is_file()]
    for path in [TOP / "tests" / "wrong" / f"{name}.edits", *sorted(files)]:
        found.update(f"{path.relative_to(TOP)}\n".encode())
        found.update(hashlib.sha256(path.read_bytes()).digest())
    return found.hexdigest()


def remembered() -> dict[str, dict[str, str | int]]:
    """Returns, for each crate whose wrong bodies were all refused, their number, the day and the
    checksum.
    """
    return json.loads(TRIED.read_text(encoding="utf-8")) if TRIED.exists() else {}


def known(names: list[str]) -> list[str]:
    """Returns those of these crates that are as they were when all their wrong bodies were
    refused.
    """
    told = remembered()
    return [it for it in names if it in told and told[it]["sum"] == checksum(it)]


def remember(names: list[str]) -> None:
    """Stores that all wrong bodies of these crates were refused. Each crate has a line."""
    today = datetime.date.today().isoformat()
    told = remembered() | {
        it: {"refused": len(edits_of(it)), "date": today, "sum": checksum(it)} for it in names
    }
    lines = ",\n".join(f" {json.dumps(it)}: {json.dumps(told[it])}" for it in sorted(told))
    TRIED.write_text(f"{{\n{lines}\n}}\n", encoding="utf-8")


def parsed() -> argparse.Namespace:
    parser = argparse.ArgumentParser(description="Tries the wrong bodies under tests/wrong/.")
    parser.add_argument("--apply", action="store_true")
    parser.add_argument("--left", action="store_true")
    parser.add_argument("--known", action="store_true")
    parser.add_argument("crates", nargs="*", metavar="CRATE")
    return parser.parse_args()


def begin(crate: Crate, groups: list[Group]) -> Tried:
    """Makes the first check of a crate. If its first group changes functions and no body needs a
    check of the whole crate, that group is checked; otherwise the unchanged crate is checked.
    """
    first, *others = groups
    has_functions = all(body.to_check() for group in groups for body in group)
    if not has_functions or not first[0].functions:
        crate.kept = crate.keep()
        return 0, groups
    try:
        refused = refusals_told(first, *crate.begin(first, [*itertools.chain(*others)]))
    except BadEdit:
        return 0, groups
    refused_now, left = left_of(crate, first, refused)
    return refused_now, [*left, *others]


def try_crate(crate: Crate, groups: list[Group]) -> Tried:
    """Tries those groups of a crate that change functions. They are tried in sequence, because each
    check continues from the previous one. Returns the number of refused bodies, and the groups that
    are left.
    """
    refused, left = begin(crate, groups)
    others = [group for group in left if not group[0].functions]
    left = [group for group in left if group[0].functions]
    while left:
        refused_now, parts = try_group(crate, left.pop(0))
        refused += refused_now
        left = [*parts, *left]
    crate.leave()
    return refused, others


def tried(folder: pathlib.Path, names: list[str], jobs: int) -> int:
    """Tries the wrong bodies of these crates, and returns how many were refused."""
    proved, every = folder / "proved", with_below(names)
    lay(proved, every)
    if are_built(every):
        take_built(proved, every)
    else:
        prove(proved)
    crates = [Crate(proved, name, folder) for name in names if edits_of(name)]
    groups = {it: groups_of([it.wrong_body(edit) for edit in edits_of(it.name)]) for it in crates}
    refused = dict.fromkeys(names, 0)
    with concurrent.futures.ThreadPoolExecutor(jobs) as pool:
        # The largest crates start first, so that none of them runs alone at the end.
        crates.sort(key=lambda it: it.size() * len(groups[it]), reverse=True)
        running = {pool.submit(try_crate, it, groups[it]): it for it in crates}
        while running:
            ready = next(concurrent.futures.as_completed(running))
            crate = running.pop(ready)
            refused_now, left = ready.result()
            refused[crate.name] += refused_now
            running.update({pool.submit(try_group, crate, group): crate for group in left})
            if refused[crate.name] == len(edits_of(crate.name)):
                remember([crate.name])
    return sum(refused.values())


def apply_each(names: list[str]) -> int:
    """Applies each wrong body of these crates to a copy, and returns how many can be applied."""
    applied = 0
    for name, edit in ((name, edit) for name in names for edit in edits_of(name)):
        try:
            turned_texts(TOP / "crates" / name, edit.turns())
            applied += 1
        except (BadEdit, FileNotFoundError) as why:
            print(f"{name}/{edit.name}: BAD: {why}", flush=True)
    return applied


def counted(names: list[str]) -> int:
    """Returns the number of wrong bodies of these crates."""
    return sum(len(edits_of(name)) for name in names)


def main() -> int:
    words = parsed()
    names = words.crates or [name for name in uses() if edits_of(name)]
    wanted = counted(names)
    if words.apply:
        applied = apply_each(names)
        print(f"{applied} of {wanted} wrong bodies can be applied")
        return 0 if applied == wanted else 1
    if words.known:
        print(f"{counted(known(names))} of {wanted} wrong bodies are known to be refused")
        return 0
    if words.left:
        names = [it for it in names if it not in known(names)]
        wanted = counted(names)
    jobs = int(os.environ.get("JOBS") or os.cpu_count() or 1)
    # As in tools/lib/rt_ci.sh, a check does not return memory to the system.
    os.environ.setdefault("MIMALLOC_PURGE_DELAY", "-1")
    with tempfile.TemporaryDirectory() as folder, files_in_memory(jobs):
        refused = tried(pathlib.Path(folder), names, jobs)
    print(f"{refused} of {wanted} wrong bodies refused")
    return 0 if refused == wanted else 1


if __name__ == "__main__":
    sys.exit(main())
