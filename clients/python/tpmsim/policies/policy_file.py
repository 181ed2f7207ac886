"""The policy in a file (docs/EXPLAIN.md), and the steps that execute it in a session, in order."""

from __future__ import annotations

from dataclasses import dataclass
from typing import Iterator

from tpmsim.faults import TpmsimError
from tpmsim.policies.policy_texts import Policy, policy_digest, Written
from tpmsim.policies.written import read_assertion, Unsaid
from tpmsim.standard import CC, digest_bytes, frames, HASH_WORDS, nv, objects, SHA1, SHA256
from tpmsim.standard.policy import LEAST_BRANCHES, MOST_BRANCHES

ALGORITHMS = SHA256, SHA1

EITHER, OR, NOTHING = b"either", b"or", b"nothing"

NO_DEMAND = "a policy without conditions is the word nothing"

# The indentation of a branch, in spaces.
STEP = 4


class Fault(TpmsimError):
    """Why a file is not a policy: the line, and the reason as text."""

    def __init__(self, line: int, words: object) -> None:
        super().__init__(f"line {line}: {words}")


@dataclass(frozen=True)
class Row:
    """A line that is neither empty nor a comment: its number, its indentation in steps, and its
    words.
    """

    number: int
    depth: int
    text: bytes


def row_of(number: int, line: bytes) -> Row:
    """Parses a line of a policy's text."""
    text = line.lstrip(b" ")
    spaces = len(line) - len(text)
    if spaces % STEP:
        raise Fault(number, f"it is indented by {spaces} spaces, which is not a multiple of {STEP}")
    if b"" in text.split(b" "):
        raise Fault(number, "words are separated by one space, and there is none at the end")
    first, space, _ = text.partition(b" ")
    if first in (EITHER, OR, NOTHING) and space:
        raise Fault(number, f"{first.decode('ascii')} must be alone in its line")
    return Row(number, spaces // STEP, text)


def rows_of(text: bytes) -> list[Row]:
    """Returns the lines that are neither empty nor comments."""
    lines = text.removesuffix(b"\n").split(b"\n")
    told = [it for it in enumerate(lines, 1) if it[1] and not it[1].lstrip(b" ").startswith(b"#")]
    if not told:
        raise Fault(1, f"the file has no policy; {NO_DEMAND}")
    return [row_of(*it) for it in told]


# The largest indentation, in steps, and the errors for a misplaced line that opens or fills a
# block.
MOST_STEPS = 16
OUT_OF_PLACE = {
    EITHER: "either must come first in its block",
    OR: "or may only follow a branch of an either",
    NOTHING: "nothing must be alone in its block",
}


class Reader:
    """Reads a policy from its rows. All its digests have the size of the first one, which is in
    line `size_line`.
    """

    def __init__(self, rows: list[Row]) -> None:
        self.rows, self.at = rows, 0
        self.size: int | None = None
        self.size_line: int | None = None

    @property
    def next(self) -> Row | None:
        """The next row, or None at the end."""
        return self.rows[self.at] if self.at < len(self.rows) else None

    @property
    def text(self) -> bytes:
        """The text of the next row; empty at the end."""
        return self.next.text if self.next else b""

    def take(self) -> Row:
        """Returns the next row, and moves to the one after it."""
        self.at += 1
        return self.rows[self.at - 1]

    def goes_on(self, depth: int) -> bool:
        """Whether the next row belongs to a block at this depth; raises Fault if it is deeper."""
        if self.next and self.next.depth > depth:
            raise Fault(self.next.number, "it is indented more than its block")
        return self.next is not None and self.next.depth == depth

    def policy(self, depth: int, opener: int) -> Policy:
        """Reads the policy of a block; `opener` is the number of the line that opens the block."""
        if self.next is None or self.next.depth < depth:
            words = f"there is no branch below it, indented by {STEP} more spaces; {NO_DEMAND}"
            raise Fault(opener, words)
        self.goes_on(depth)
        if self.text == NOTHING:
            row = self.take()
            if self.goes_on(depth):
                raise Fault(row.number, OUT_OF_PLACE[NOTHING])
            return Policy()
        line, branches = self.branches(depth) if self.text == EITHER else (0, ())
        assertions = []
        while self.goes_on(depth):
            assertions.append(self.assertion(self.take()))
        return Policy(line, branches, tuple(assertions))

    def branches(self, depth: int) -> tuple[int, tuple[Policy, ...]]:
        """Reads an `either` with its branches; returns its line and the branches."""
        opener = self.take().number
        if depth == MOST_STEPS:
            raise Fault(
                opener, f"its branches are indented by more than {MOST_STEPS * STEP} spaces"
            )
        found = [self.policy(depth + 1, opener)]
        while self.goes_on(depth) and self.text == OR:
            row = self.take()
            if len(found) == MOST_BRANCHES:
                raise Fault(row.number, f"there are more than {MOST_BRANCHES} branches")
            found.append(self.policy(depth + 1, row.number))
        if len(found) < LEAST_BRANCHES:
            raise Fault(opener, "it has only one branch, and no or")
        return opener, tuple(found)

    def assertion(self, row: Row) -> Written:
        """Reads the assertion of a row."""
        if row.text in OUT_OF_PLACE:
            raise Fault(row.number, OUT_OF_PLACE[row.text])
        try:
            said = read_assertion(row.text)
        except Unsaid as fault:
            raise Fault(row.number, fault) from None
        if said.code in (CC.PolicyPCR, CC.PolicyCpHash) and isinstance(said.values[-1], bytes):
            size = len(said.values[-1])
            if self.size is None:
                self.size, self.size_line = size, row.number
            if self.size != size:
                other = f"that of line {self.size_line} has {self.size}"
                raise Fault(row.number, f"its digest has {size} bytes, and {other}")
        return Written(row.number, said)


class PolicyFile:
    """A policy in words, with its digests."""

    def __init__(self, name: str, text: bytes) -> None:
        self.name, self.rows = name, rows_of(text)
        reader = Reader(self.rows)
        self.policy = reader.policy(0, 1)
        self.size, self.size_line = reader.size, reader.size_line
        sizes = [reader.size] if reader.size else [digest_bytes(it) for it in ALGORITHMS]
        those = [it for it in ALGORITHMS if digest_bytes(it) in sizes]
        self.digests = {it: policy_digest(it, self.policy) for it in those}

    def is_of(self, public: nv.Public | objects.Public) -> bool:
        """Returns whether an entity has this policy."""
        found = self.digests.get(public.name_algorithm)
        return found is not None and found == public.auth_policy

    def report(self) -> Iterator[str]:
        """Yields the lines of the policy, and its digests."""
        yield f"Policy {self.name}"
        width = len(str(self.rows[-1].number))
        for row in self.rows:
            text = " " * STEP * row.depth + row.text.decode("ascii")
            yield f"    {row.number:{width}}  {text}"
        for algorithm in ALGORITHMS:
            found = self.digests.get(algorithm)
            none = f"none, as the digest of policy line {self.size_line} has {self.size} bytes"
            yield f"  its digest by {HASH_WORDS[algorithm]}: {found.hex() if found else none}"


@dataclass(frozen=True)
class Step:
    """The step of an assertion. A PolicyOR contains the steps of each branch; a step about an
    entity contains the entity's Name.
    """

    code: CC
    parameters: bytes = b""
    name: bytes = b""
    branches: tuple[tuple[Step, ...], ...] = ()


def policy_of(words: str) -> Policy:
    """Parses a policy in words; raises Fault if the words are not a policy."""
    return PolicyFile("policy", words.encode()).policy


def digest_of(words: str, algorithm: int = SHA256) -> bytes:
    """Returns the digest of a policy in words."""
    return policy_digest(algorithm, policy_of(words))


def steps_of(policy: Policy, algorithm: int) -> tuple[Step, ...]:
    """Returns all steps of a policy. If it has branches, the first step contains their steps."""
    those = [it.said.by(algorithm) for it in policy.assertions]
    steps = [Step(it.code, it.parameters, it.name) for it in those]
    if policy.branches:
        digests = [policy_digest(algorithm, it) for it in policy.branches]
        branches = tuple(steps_of(it, algorithm) for it in policy.branches)
        steps.insert(0, Step(CC.PolicyOR, frames.sized_list(*digests), branches=branches))
    return tuple(steps)
