"""A reviewer's policies in words: which entities have them, and whether each use satisfied its
entity's policy. tpm_policy_meaning defines when a session satisfies a policy (Meaning): it made the
written assertions in this order, along one branch at each PolicyOR. In addition, the assertions
must hold when the session is used.
"""

from dataclasses import dataclass, replace
from typing import Iterator, Sequence

from tpmsim.audit import broken
from tpmsim.audit.ground import Finding, Grounds, Use
from tpmsim.audit.log import section
from tpmsim.audit.session_lines import Asserted
from tpmsim.audit.watch import Entities, Entity
from tpmsim.explain.words import command_words
from tpmsim.faults import TpmsimError
from tpmsim.model.parameters import Parameters
from tpmsim.policies.pcr_values import PcrValues
from tpmsim.policies.policy_file import PolicyFile
from tpmsim.policies.policy_texts import Policy, policy_digest, Written
from tpmsim.policies.written import Said
from tpmsim.standard import CC, nv, policy, SE_POLICY
from tpmsim.standard.lines import handle_word


@dataclass(frozen=True)
class Told:
    """The assertions that the log shows for a session, and the digest that the session already had
    when the log began, if any.
    """

    asserted: Sequence[Asserted]
    before: bytes = b""


class NotMet(TpmsimError):
    """The part of a policy that a session did not assert, as text."""


@dataclass(frozen=True)
class Step:
    written: Written
    asserted: Asserted


@dataclass(frozen=True)
class Before:
    """An `either` of the policy whose branch was chosen before the log began, with its line. The
    log does not show which branch that was.
    """

    line: int

    @property
    def words(self) -> str:
        return f"policy line {self.line}, either: a branch was met before the log"


@dataclass(frozen=True)
class Choice:
    """The branch that the session chose at an `either` of the policy: the line of the `either`, the
    branch's number, counted from 1, the number of branches, and the TPM2_PolicyOR.
    """

    line: int
    place: int
    count: int
    asserted: Asserted

    @property
    def words(self) -> str:
        branch = f"branch {self.place} of {self.count}"
        return f"policy line {self.line}, either: {branch}, by line {self.asserted.line} (PolicyOR)"


# A step by which a session satisfies a policy.
Taken = Step | Before | Choice


def steps_of(algorithm: int, of: Policy, told: Told) -> list[Taken]:
    """Returns, in order, the steps by which a session's assertions satisfy a policy; raises NotMet
    if the policy is not satisfied.
    """
    steps, left = list[Taken](), of.assertions
    while left:
        rest = replace(of, assertions=left)
        if is_before(algorithm, rest, told):
            return [*steps_before(rest), *steps]
        *earlier, written = left
        told, latest = step_at(algorithm, written, told)
        left = tuple(earlier)
        steps.insert(0, Step(written, latest))
    return [*(steps_at_or(algorithm, of, told) if of.branches else []), *steps]


def is_before(algorithm: int, of: Policy, told: Told) -> bool:
    """Whether a session already had the policy's digest when the log began, and has asserted
    nothing since.
    """
    return not told.asserted and bool(told.before) and policy_digest(algorithm, of) == told.before


def steps_before(of: Policy) -> Iterator[Taken]:
    """Yields the steps of a policy that were made before the log began."""
    if of.branches:
        yield Before(of.line)
    for written in of.assertions:
        asserted = Asserted(0, written.said, "what has that Name", b"", b"")
        yield Step(written, asserted)


def step_at(algorithm: int, written: Written, told: Told) -> tuple[Told, Asserted]:
    """Splits a session's assertions: returns those before the last one, and the last one. Raises
    NotMet unless the last one is the written assertion.
    """
    head = f"policy line {written.line}, {written.said.words}"
    if not told.asserted:
        raise NotMet(f"{head}: it was not asserted")
    *earlier, latest = told.asserted
    if not latest.says(written.said.by(algorithm)):
        raise NotMet(f"{head}: line {latest.line} asserts {latest.said.words} in its place")
    return replace(told, asserted=earlier), latest


def steps_at_or(algorithm: int, of: Policy, told: Told) -> list[Taken]:
    """Returns the steps of the branch whose digest the session had at TPM2_PolicyOR."""
    head = f"policy line {of.line}, either"
    if is_before(algorithm, replace(of, assertions=()), told):
        return [Before(of.line)]
    if not told.asserted or told.asserted[-1].said.code != CC.PolicyOR:
        raise NotMet(f"{head}: TPM2_PolicyOR was not asserted")
    *earlier, latest = told.asserted
    fault = NotMet(f"{head}: before line {latest.line} (PolicyOR) the digest is that of no branch")
    for place, branch in enumerate(of.branches, 1):
        if policy_digest(algorithm, branch) == latest.before:
            choice = Choice(of.line, place, len(of.branches), latest)
            try:
                return [*steps_of(algorithm, branch, replace(told, asserted=earlier)), choice]
            except NotMet as of_branch:
                fault = of_branch
    raise fault


def finding(step: Step, use: Use, grounds: Grounds) -> Finding:
    written, asserted = step.written, step.asserted
    name, other = written.said.code.name, asserted.said.code.name
    found = of_assertion(written.said.by(use.session.algorithm), asserted, use, grounds)
    if written.said.values and isinstance(written.said.values[0], PcrValues) and found.holds:
        found = of_pcr_values(written.said.values[0], grounds)
    by = f"line {asserted.line}" if asserted.line else "a line before the log"
    by += "" if other == name else f" ({other})"
    joined = "and" if found.holds else "but"
    words = f"policy line {written.line}, {name}: {by} asserts it, {joined} {found.words}"
    return Finding(found.holds, words)


def of_assertion(said: Said, asserted: Asserted, use: Use, grounds: Grounds) -> Finding:
    locality = use.seen.locality
    match said.code, *said.values:
        case CC.PolicyPCR, selection, digest:
            return of_pcrs(selection, digest, asserted.line, use, grounds)
        case CC.PolicyCommandCode, code:
            return Finding(use.code == code, f"the command is {command_words(use.code)}")
        case CC.PolicyLocality, localities:
            holds = bool(localities >> locality & 1)
            return Finding(holds, f"the command comes from locality {locality}")
        case CC.PolicyCpHash, cp_hash:
            words = f"the cpHash of the command is {use.cp_hash.hex()}"
            return Finding(use.cp_hash == cp_hash, words)
        case CC.PolicyNvWritten, wanted:
            return of_written(wanted, use)
        case CC.PolicySecret, *_:
            return Finding(True, f"{asserted.of} authorized that command")
        case CC.PolicyNV, *_:
            return Finding(True, f"the comparison held then, of the data of {asserted.of}")
    return of_value(use, grounds)


def of_pcrs(selection: bytes, digest: bytes, line: int, use: Use, grounds: Grounds) -> Finding:
    selected = Parameters(selection).next().selection()
    now, lines = grounds.history.pcrs.digest(use.session.algorithm, selected), grounds.pcrs
    values = lines.values(selected)
    if now != digest:
        return Finding(False, f"the PCRs have the digest {now.hex()} at the use: {values}")
    if lines.last_change > line:
        return Finding(False, f"line {lines.last_change} {lines.last_words} after that: {values}")
    return Finding(True, f"the PCRs have that digest, and none was written since then: {values}")


def of_pcr_values(wanted: PcrValues, grounds: Grounds) -> Finding:
    """Compares the PCRs with the expected values, whose digest was asserted."""
    values = grounds.pcrs.values(Parameters(wanted.selection).next().selection())
    if values != wanted.word:
        words = f"two texts have the same hash: the PCRs have {values} in place of {wanted.word}"
        return Finding(False, words)
    return Finding(True, f"the PCRs have these values, and none was written since then: {values}")


def of_value(use: Use, grounds: Grounds) -> Finding:
    if use.demand is None:
        return Finding(False, "the session requires no authorization value")
    asks_password = use.demand == policy.PASSWORD
    found = grounds.password(use) if asks_password else grounds.hmac(use)
    if use.value or asks_password:
        return found
    return Finding(found.holds, f"{found.words}; the authorization value is the empty one")


def of_written(wanted: bool, use: Use) -> Finding:
    if use.view.index is None:
        return Finding(False, "the used entity is not an NV index")
    is_written = use.view.index.has(nv.Attribute.WRITTEN)
    words = f"the index is {'' if is_written else 'not '}written before the command"
    return Finding(is_written == wanted, words)


# The part of the policy that a use does not satisfy, if any, and everything that was found.
Judgement = tuple[str | None, list[str]]


class Judged:
    """A policy's file, the uses of the entities with that policy, and the uses that do not satisfy
    it.
    """

    def __init__(self, file: PolicyFile) -> None:
        self.file, self.unmet = file, list[str]()
        self.uses: dict[int, list[str]] = {}

    def note(self, use: Use, entity: Entity, grounds: Grounds) -> None:
        told, line = self.uses.setdefault(id(entity), []), use.seen.line
        name = command_words(use.code)
        words = f"line {line}: {name} {grounds.title(use)}"
        if not use.is_policy:
            told.append(f"    {words} asks for no policy")
            return
        begun = grounds.sessions.live[use.entry.handle]
        lacks, conditions = self.judged(use, Told(begun.asserted, begun.before), grounds)
        told.append(f"    {words} {'does not meet it' if lacks else 'meets it'}")
        told += [f"        {it}" for it in conditions]
        if lacks:
            named = f"script line {line}, {name} of {handle_word(use.authorized)}"
            self.unmet.append(f"{self.file.name}: {named}, does not meet it: {lacks}")

    def judged(self, use: Use, told: Told, grounds: Grounds) -> Judgement:
        public, digest = use.view.public, use.session.policy.digest
        assert public is not None
        if use.session.kind != SE_POLICY:
            lacks = "its session is a trial session, which authorizes nothing"
            return lacks, [lacks]
        algorithm, has_digest = public.name_algorithm, digest == public.auth_policy
        other = f"its session has another digest, {digest.hex()}"
        try:
            steps = steps_of(algorithm, self.file.policy, told)
        except NotMet as fault:
            explained = broken.explanation(algorithm, self.file.policy, told.asserted)
            words = [str(fault), explained if has_digest else other]
            return "; ".join(words), words
        return held(steps, use, grounds) if has_digest else (other, [other])

    def report(self, entities: list[Entity]) -> Iterator[str]:
        yield from self.file.report()
        having = [it for it in entities if self.is_of(it)]
        if not having:
            yield "  no entity of the log has it"
        for entity in having:
            yield f"  {entity.title}"
            yield from self.uses.get(id(entity), ["    it was not used"])

    def is_of(self, entity: Entity) -> bool:
        return entity.public is not None and self.file.is_of(entity.public)


def held(steps: list[Taken], use: Use, grounds: Grounds) -> Judgement:
    """Checks a policy's steps when the session is used. Returns the first condition that does not
    hold, and all findings.
    """
    found = [
        finding(it, use, grounds) if isinstance(it, Step) else Finding(True, it.words)
        for it in steps
    ]
    lacks = next((it.words for it in found if not it.holds), None)
    return lacks, [it.words for it in found]


class Policies:
    def __init__(self, files: Sequence[PolicyFile], entities: Entities, grounds: Grounds) -> None:
        self.all = [Judged(it) for it in files]
        self.entities, self.grounds = entities, grounds

    def note(self, use: Use) -> None:
        """Notes an accepted use of an entity, before it is added to the history."""
        for judged in self.all:
            if use.view.public and judged.file.is_of(use.view.public):
                judged.note(use, self.entities.of(use.authorized), self.grounds)

    def report(self) -> Iterator[str]:
        for judged in self.all:
            yield from judged.report(self.entities.all)
            yield ""
        having = [it for it in self.entities.all if it.public and it.public.auth_policy]
        others = [it for it in having if not any(judged.is_of(it) for judged in self.all)]
        title = "Entities whose policy is none of these"
        none = "Each entity with a policy has one of these."
        yield from section(title, (f"  {it.title}" for it in others), none)

    def unmet(self) -> list[str]:
        return [words for judged in self.all for words in judged.unmet]

    def faults(self) -> list[str]:
        """Returns messages about policies that no entity has, and uses that do not satisfy their
        policy.
        """
        missing = [it for it in self.all if not any(map(it.is_of, self.entities.all))]
        words = [f"{it.file.name}: no entity of the log has this policy" for it in missing]
        return words + self.unmet()
