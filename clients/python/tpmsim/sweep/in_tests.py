"""Sweeps a test of pytest: runs it again for each refusal that one of its commands could meet. Each
of these runs is a test of its own, which fails if something is wrong with what the test did.
"""

from __future__ import annotations

from dataclasses import dataclass, field
from typing import Any

import pytest
from _pytest.runner import runtestprotocol

from tpmsim.caller import Refused
from tpmsim.device.base import Answered
from tpmsim.device.library import is_there, LibraryDevice
from tpmsim.faults import BadValue
from tpmsim.refuse.finding import Event
from tpmsim.sweep.findings import findings_of
from tpmsim.sweep.refusals import Only, planned, Refusal
from tpmsim.sweep.runs import Ran
from tpmsim.sweep.tpm import SEED, SweptTpm

MARK = "tpm_sweep"
MARK_HELP = (
    f"{MARK}(only=[], limit=None, raises=()): runs the test again for each refusal that its commands"
    " could meet; `only` and `limit` as in tpmsim-sweep, `raises` are more exceptions that report a"
    " refusal"
)

# How many commands a test may send after those of its run without a refusal.
MORE_COMMANDS = 100

# The status of a test that passes, that reports a refusal, and that raises something else.
PASSES, REPORTS, DIES = 0, 1, -1


class Endless(BaseException):
    """A test that sends commands without end."""


class SweptDevice(LibraryDevice):
    """A device in this process, which refuses one command of a test."""

    def __init__(self) -> None:
        super().__init__(seed=SEED)
        self.swept: SweptTpm | None = None
        self.most = MORE_COMMANDS

    def execute(self, buffer: bytes) -> Answered:
        if self.swept is None:
            return super().execute(buffer)
        if len(self.swept.sent) >= self.most and self.swept.asked:
            raise Endless(f"the test sent {self.most} commands")
        self.look_whole()
        executed = self.swept.respond(Event(buffer, self.at, self.drawn(), self.elapsed))
        self.elapsed = 0
        self.events.append(executed)
        return Answered(executed.response, executed.check)


@dataclass
class Part:
    """One run of a swept test: the refusal, or None in the run without one; the exceptions that
    report a refusal; and what the run without a refusal did.
    """

    refusal: Refusal | None
    raises: tuple[type[BaseException], ...]
    base: Ran | None = None
    device: SweptDevice | None = None
    ran: Ran | None = None
    events: list[tuple[bytes, Event]] = field(default_factory=list)

    def begin(self) -> None:
        """Watches the commands from here on."""
        if self.device is not None:
            is_first = self.refusal is None
            given = self.device.state(), self.refusal, is_first, self.device
            self.device.swept = SweptTpm(*given)
            self.device.most += len(self.base.sent) if self.base else 0

    def end(self, fault: BaseException | None) -> None:
        """Records what the test did, which raised `fault`."""
        if self.device is None or self.device.swept is None:
            return
        tpm, status = self.device.swept, PASSES
        if fault is not None:
            status = REPORTS if isinstance(fault, self.raises) else DIES
        trouble = tpm.trouble or ("" if tpm.met else "the test did not send this command")
        sent, left = tuple(tpm.sent), tpm.left()
        hangs = isinstance(fault, Endless)
        self.ran = Ran(status, b"", b"", 0.0, hangs, sent, left, trouble, tpm.events)


PART = pytest.StashKey[Part]()


def clone(item: pytest.Function, words: str) -> pytest.Function:
    """Returns the same test once more, with another name."""
    callspec, fixtures = getattr(item, "callspec", None), item._fixtureinfo
    given = {"callspec": callspec, "fixtureinfo": fixtures, "originalname": item.originalname}
    name = f"{item.name}[{words}]"
    made: pytest.Function = pytest.Function.from_parent(  # type: ignore[no-untyped-call]
        item.parent, name=name, **given
    )
    return made


def sweep(item: pytest.Function, mark: pytest.Mark) -> None:
    """Runs a test without a refusal, and then once for each refusal."""
    only, raised = mark.kwargs.get("only", []), mark.kwargs.get("raises", ())
    try:
        wanted = [Only.of(it) for it in ([only] if isinstance(only, str) else only)]
    except BadValue as fault:
        item.warn(pytest.PytestWarning(f"{MARK}: only: {fault}"))
        return
    raises = raised if isinstance(raised, tuple) else (raised,)
    known = Refused, AssertionError, pytest.fail.Exception, *raises
    base = clone(item, "unrefused")
    part = base.stash[PART] = Part(None, known)
    reports = runtestprotocol(base, log=False, nextitem=item)
    if any(it.failed for it in reports) or part.ran is None:
        item.warn(pytest.PytestWarning(f"{MARK}: the test fails or skips, even unrefused"))
        return
    for refusal in planned(part.ran.events, wanted, mark.kwargs.get("limit")):
        if refusal.start is None:
            words = f"{refusal.at + 1} {refusal.name} {refusal.met} {refusal.code_name}"
            again = clone(item, words)
            again.stash[PART] = Part(refusal, known, part.ran)
            protocol_of(again, item)


def protocol_of(item: pytest.Function, following: pytest.Function) -> None:
    """Runs a test, and reports it like any other."""
    item.ihook.pytest_runtest_logstart(nodeid=item.nodeid, location=item.location)
    runtestprotocol(item, nextitem=following)
    item.ihook.pytest_runtest_logfinish(nodeid=item.nodeid, location=item.location)


def sweep_marked(item: pytest.Item) -> None:
    """Sweeps a test with the mark. The test itself is then still to be run."""
    mark = item.get_closest_marker(MARK)
    if mark is None or not isinstance(item, pytest.Function):
        return
    if "tpm" not in item.fixturenames:
        item.warn(pytest.PytestWarning(f"{MARK} needs the fixture tpm"))
    elif not is_there():
        item.warn(pytest.PytestWarning(f"{MARK} needs the library libtpmsim"))
    else:
        sweep(item, mark)


def judge(part: Part, item: pytest.Item, fault: BaseException | None, report: Any) -> None:
    """Turns the report of one run into what was found."""
    part.end(fault)
    refusal, ran, base = part.refusal, part.ran, part.base
    if refusal is None or ran is None or base is None:
        return
    if ran.trouble:
        path, line, _ = item.location
        report.outcome, report.longrepr = "skipped", (path, line, f"not refused: {ran.trouble}")
        return
    findings = findings_of(ran, base, refusal)
    report.outcome = "failed" if findings else "passed"
    words = ", ".join(it.value for it in findings)
    how = f", and the test raised {fault!r}" if fault is not None else ""
    report.longrepr = f"{refusal}{how}\nFINDING: {words}" if findings else None
