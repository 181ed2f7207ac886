"""Finds the functions in the files of a crate, with their lines and paths, and the prover's
messages about each of them.
"""

from __future__ import annotations

import collections
import dataclasses
import re

FUNCTION = re.compile(r"\s*(pub(\([a-z ]+\))? )?(const )?(unsafe )?(?:extern \S+ )?fn (\w+)")
# the first word of an impl or trait block, and its head without parameters
BLOCK = re.compile(r"(?:pub(?:\([a-z ]+\))? )?(?:unsafe )?(?:impl|trait)\b")
HEAD = re.compile(
    rf"{BLOCK.pattern} (?:(?:\w+::)*(?P<trait>\w+)(?:<(?P<arguments>\w+(?:, \w+)*)>)? for )?"
    r"(?:\w+::)*(?P<type>\w+)\b(?!.* for )"
)
# a line of a message that begins with a position in a file
PLACE = re.compile(r"(?:note: )?(?:\./)?(\S+?\.(?:rt|antt)):(\d+):\d+: (.*)")


@dataclasses.dataclass(frozen=True)
class Function:
    """A function: its file, its first line, the line after its last one, and its name."""

    file: str
    first: int
    end: int
    name: str
    # whether no other function of the file has this name
    is_alone: bool
    # the type or the trait of its block, as the prover writes it; empty outside of a block, and
    # None if it cannot be determined
    owner: str | None

    def fails_in(self, said: list[str]) -> str | None:
        """Returns the line of the prover's messages that reports a failing goal of this function,
        or None.
        """
        return next((line for line in said if self._is_told(line)), None)

    def _is_told(self, line: str) -> bool:
        place = PLACE.match(line)
        if not place:
            return False
        file, number, words = place[1], int(place[2]) - 1, place[3]
        if file == self.file:
            return self.first <= number < self.end and is_fault(line)
        proofs = re.sub(r"src/(lib$|main$)?", "proofs/", self.file[: -len(".rt")])
        own = file.startswith(proofs) and file.endswith(f"/{self.name}/Answers.antt")
        return self.is_alone and own and "error" in words

    def text_in(self, lines: list[str]) -> str:
        """Returns the function's text, from the lines of its file."""
        return "\n".join(lines[self.first : self.end])

    def module(self) -> str:
        """Returns the path of the file's module within the crate, or an empty string for the root.
        """
        return re.sub(r"src/(lib$|main$)?", "", self.file[: -len(".rt")]).replace("/", "::")

    def path(self) -> str:
        """Returns the end of the function's path within the crate: its owner or module, and its
        name. If the owner is unknown, returns the path of the module.
        """
        if self.owner is None:
            return self.module()
        return "::".join(filter(None, [self.owner or self.module(), self.name]))

    def told_in(self, said: list[str]) -> dict[str, str]:
        """Returns the messages about this function, keyed by its path. If its owner is unknown,
        includes the messages about all functions with this name in the file.
        """
        paths = rf"{self.module()}\S*\b{self.name}" if self.owner is None else self.path()
        told = re.compile(rf"fn \w+::({'(?:[^ ]+::)?' if self.owner else ''}{paths}): (.*)")
        return {match[1]: match[2] for line in said if (match := told.match(line))}

    def is_proved_in(self, said: list[str]) -> bool:
        """Returns whether there are messages about this function, and all report that it is proved.
        """
        words = self.told_in(said).values()
        return bool(words) and all(it == "proved" for it in words)


def is_fault(line: str) -> bool:
    """Returns whether a line names a position at which something is refused or not proved."""
    place = PLACE.match(line)
    return place is not None and ("error" in place[3] or "not proved" in place[3])


def functions_of(file: str, text: str) -> list[Function]:
    """Returns the functions of a file. Comments and attributes above a function belong to it."""
    lines = text.split("\n")
    found = [(at, match[5]) for at, line in enumerate(lines) if (match := FUNCTION.match(line))]
    names = collections.Counter(name for _, name in found)
    firsts = [head_of(lines, at) for at, _ in found]
    return [
        Function(file, first, end, name, names[name] == 1, owner_of(lines, at))
        for first, end, (at, name) in zip(firsts, [*firsts[1:], len(lines)], found)
    ]


def owner_of(lines: list[str], at: int) -> str | None:
    """Returns the type or the trait of the block that contains the function at a line, as the
    prover writes it.
    """
    if not lines[at].startswith(" "):
        return ""
    first = next((it for it in range(at, -1, -1) if BLOCK.match(lines[it])), at)
    head, _, _ = " ".join(lines[first:at]).partition("{")
    match = HEAD.match(without_parameters(head))
    if not match:
        return None
    trait, arguments = match["trait"] or "", match["arguments"] or ""
    # A single-letter argument is a parameter of the block, which the prover does not print.
    return match["type"] + trait + "".join(it for it in arguments.split(", ") if len(it) > 1)


def without_parameters(head: str) -> str:
    """Returns the head of a block without the generic parameters after its first word."""
    word, opened, rest = head.partition("<")
    if not opened or not BLOCK.fullmatch(word):
        return head
    depth, at = 1, 0
    while depth and at < len(rest):
        depth += {"<": 1, ">": -1}.get(rest[at], 0)
        at += 1
    return word + rest[at:]


def head_of(lines: list[str], at: int) -> int:
    """Returns the number of the first line of the comments and attributes above a line."""
    while at > 0 and lines[at - 1].lstrip().startswith(("///", "#[")):
        at -= 1
    return at
