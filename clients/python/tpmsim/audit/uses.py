"""Judges each use of an entity by the history before the use; reports failed guesses and other
refusals.
"""

from dataclasses import dataclass, field
from typing import Iterator

from tpmsim.audit.ground import Finding, Grounds, Use
from tpmsim.audit.lines import Repeats
from tpmsim.audit.log import Disagreement, section
from tpmsim.audit.offline import OfflineGuesses
from tpmsim.audit.policy_lines import Policies
from tpmsim.audit.session_lines import SessionLines
from tpmsim.audit.watch import Entities, Seen
from tpmsim.explain import text
from tpmsim.explain.words import command_words
from tpmsim.model.machine import Model
from tpmsim.model.protection import MILLISECONDS, TRIES
from tpmsim.standard import CC

RESETS = (CC.DictionaryAttackLockReset, CC.DictionaryAttackParameters, CC.Clear)

# The response codes for a wrong entry that guesses a protected value, and for any other wrong
# entry.
COUNTED, NOT_COUNTED = "AUTH_FAIL", "BAD_AUTH"


@dataclass
class Stretch:
    """The time between two resets of failedTries: its events, its duration in milliseconds, and the
    lines of the failed guesses.
    """

    first: int
    most: int
    recovery: int
    elapsed: int = 0
    failed: list[int] = field(default_factory=list)

    @property
    def bound(self) -> int | None:
        """Returns the largest possible number of failed guesses; None if recoveryTime is 0, because
        then nothing is protected.
        """
        period = MILLISECONDS * self.recovery
        return self.most + self.elapsed // period if period else None

    def words(self, last: int) -> str:
        lines = "line" if len(self.failed) == 1 else "lines"
        of = f"maxTries {self.most} + {self.elapsed} ms / {self.recovery} s"
        bound = f" of at most {self.bound} ({of})"
        if self.bound is None:
            bound = ", and recoveryTime is 0, so that any number may fail"
        head = f"  lines {self.first} to {last}: {len(self.failed)}{bound}"
        return f"{head}; {lines} {', '.join(map(str, self.failed))}"


class Guesses:
    def __init__(self, device: Model, sessions: SessionLines) -> None:
        self.sessions, self.told = sessions, list[str]()
        lockout = device.lockout
        self.stretch = Stretch(1, lockout.max_tries, lockout.recovery_time)

    def refuse(self, seen: Seen, grounds: Grounds) -> None:
        """Notes a refused command. Raises Disagreement if there were more failed guesses than
        possible, or if the response code is wrong about whether the command is a guess.
        """
        self.stretch.elapsed += seen.elapsed
        name, _, place = (seen.outcome.refused or "").partition("/s")
        if name not in (COUNTED, NOT_COUNTED) or not place or seen.known is None:
            return
        touched = self.touched(list(grounds.uses(seen))[int(place) - 1])
        if (touched is None) != (name == NOT_COUNTED):
            protected = "something" if touched else "nothing"
            words = f"{name} for entry {place}, which is a guess at {protected} that is protected"
            raise Disagreement(words)
        if touched == TRIES:
            self.stretch.failed.append(seen.line)
            bound = self.stretch.bound
            if bound is not None and len(self.stretch.failed) > bound:
                words = f"more failed guesses than {bound} since line {self.stretch.first}"
                raise Disagreement(words)

    def touched(self, use: Use) -> str | None:
        """Returns which protection counts a failed attempt: that of the value in the HMAC's key or
        the password, or that of the value to which the session is bound.
        """
        own = use.view.protection if use.takes_value else None
        return own or self.sessions.protection(use.entry.handle)

    def note(self, seen: Seen) -> None:
        if seen.is_power_cycle or seen.accepted.code not in RESETS:
            self.stretch.elapsed += seen.elapsed
            return
        self.close(seen.line)
        most, recovery = self.stretch.most, self.stretch.recovery
        if seen.accepted.code == CC.DictionaryAttackParameters:
            given = seen.accepted.given
            most, recovery = given["newMaxTries"], given["newRecoveryTime"]
        self.stretch = Stretch(seen.line, most, recovery)

    def close(self, last: int) -> None:
        if self.stretch.failed:
            self.told.append(self.stretch.words(last))

    def report(self, last: int) -> Iterator[str]:
        self.close(last)
        title = "Failed guesses, by the stretches between resets"
        return section(title, self.told, "Failed guesses: none.")


# The response code for a guess during lockout, which the device does not check.
LOCKED = "LOCKOUT"


class Uses:
    """Counts the justified uses, the refused uses, and the entries that authorize nothing."""

    def __init__(
        self,
        grounds: Grounds,
        entities: Entities,
        guesses: Guesses,
        repeats: Repeats,
        policies: Policies,
        offline: OfflineGuesses,
    ) -> None:
        self.grounds, self.entities, self.guesses = grounds, entities, guesses
        self.repeats, self.policies, self.offline = repeats, policies, offline
        self.allowed = self.refused = self.others = 0

    def accept(self, seen: Seen) -> None:
        """Raises Disagreement unless each entry of an accepted command is justified by the history."""
        if self.grounds.plain_parameters(seen.command) != seen.accepted.parameters:
            raise Disagreement("its parameters are others once they are decrypted")
        for use in self.grounds.uses(seen):
            findings = list(self.grounds.findings(use))
            wrong = [it.words for it in findings if not it.holds]
            if wrong:
                title = self.grounds.title(use)
                raise Disagreement(f"entry {use.place}, {title}, has no ground: {wrong[0]}")
            self.repeats.note(use)
            self.offline.note(use)
            if use.handle is None:
                self.others += 1
            else:
                self.allowed += 1
                self.tell(use, findings)
                self.policies.note(use)

    def tell(self, use: Use, findings: list[Finding]) -> None:
        """Reports a use and why it was accepted. For a policy session the reasons are the
        conditions that held; for any other entry, it is the value that the caller proved to know.
        """
        used, told = self.entities.of(use.authorized).used, self.words(use)
        if use.live and use.is_policy:
            self.grounds.sessions.use_for(use.seen.line, use.entry.handle, use.code, use.authorized)
            used.append(told)
            used += [f"        {it.words}" for it in findings]
            used += self.pcr_rows(use)
        else:
            used.append(f"{told}: {findings[-1].words}")

    def words(self, use: Use) -> str:
        title = self.grounds.title(use)
        return f"    line {use.seen.line}: {command_words(use.code)} {title}"

    def refuse(self, seen: Seen) -> None:
        """Raises Disagreement if an entry is refused although the history justifies every entry."""
        if not seen.is_refused_entry:
            return
        lacking = self.lacking(seen)
        if lacking is None:
            raise Disagreement("it is refused, and each entry has a ground")
        use, words = lacking
        if use.handle is not None:
            self.refused += 1
            told = f"{self.words(use)} is refused by {seen.outcome.refused}: {words}"
            self.entities.of(use.handle).used += [told, *self.pcr_rows(use)]

    def pcr_rows(self, use: Use) -> list[str]:
        return [f"        {it}" for it in self.grounds.pcr_words(use)]

    def lacking(self, seen: Seen) -> tuple[Use, str] | None:
        """Returns the first entry that the history does not justify, and what it lacks; None if
        there is no such entry.
        """
        for use in self.grounds.uses(seen):
            if seen.outcome.refused == LOCKED and self.guesses.touched(use):
                return use, "what it would be a guess at is locked"
            for finding in self.grounds.findings(use):
                if not finding.holds:
                    return use, finding.words
        return None

    def reason(self, seen: Seen) -> str:
        """Returns why the device refuses the command, as the end of a sentence about the log."""
        if seen.is_refused_entry:
            lacking = self.lacking(seen)
            return f": of entry {lacking[0].place}, {lacking[1]}" if lacking else ""
        reason = seen.explained.reason if seen.explained else None
        return f": {reason.words.removesuffix('.')}" if reason else ""

    def report(self) -> Iterator[str]:
        if not self.allowed + self.refused:
            yield "Uses: none."
            return
        yield f"Uses, {self.allowed} with a ground and {self.refused} that were refused"
        yield from self.entities.report()
        if self.others:
            yield f"  {self.others} entries authorize nothing, and each has a ground too"


class Refusals:
    """Refusals that no entry caused, in the words of tpmsim.explain."""

    def __init__(self) -> None:
        self.told: list[str] = []

    def note(self, seen: Seen) -> None:
        event = seen.explained
        if event is not None and event.reason is not None:
            self.told.append(f"  line {event.line}: {text.title(event)}")
            self.told += text.told_words(event.reason)

    def report(self) -> Iterator[str]:
        title = "Refusals that are no entry's"
        return section(f"{title}, each with the reason", self.told, f"{title}: none.")
