"""Sweeps a client: its run without a refusal, and one run for each refusal."""

from __future__ import annotations

from concurrent.futures import ThreadPoolExecutor
from dataclasses import dataclass
from typing import Callable

from tpmsim.faults import TpmsimError
from tpmsim.sweep.findings import Finding, findings_of, findings_unrefused, is_dead
from tpmsim.sweep.refusals import Refusal
from tpmsim.sweep.runs import Ran, run, Settings


class NoSweep(TpmsimError):
    """The client cannot be swept; the message says why."""


@dataclass(frozen=True)
class Refused:
    """A run in which a command was refused, and what is wrong with it."""

    refusal: Refusal
    ran: Ran
    findings: list[Finding]


@dataclass
class Sweep:
    """The run without a refusal, what is wrong with it, and the other runs."""

    base: Ran
    findings: list[Finding]
    refused: list[Refused]

    @property
    def count(self) -> int:
        """The number of findings."""
        return len(self.findings) + sum(len(it.findings) for it in self.refused)


def unrefused(settings: Settings) -> Ran:
    """Returns the run without a refusal; raises NoSweep if the client fails there, or sends no
    command.
    """
    base = run(settings, keeps=True)
    if base.hangs:
        raise NoSweep(f"the command does not end within {settings.seconds:g} s, even unrefused")
    if base.status:
        said = base.errors.decode(errors="replace").strip().rpartition("\n")[2]
        how = f"dies by signal {-base.status}" if is_dead(base) and base.status < 0 else ""
        how = how or f"ends with status {base.status}"
        raise NoSweep(f"the command {how}, even unrefused{': ' if said else ''}{said}")
    if not base.sent:
        raise NoSweep("the command sends nothing to the TPM; --help says how it finds the TPM")
    return base


def begun(settings: Settings) -> Sweep:
    """Returns a sweep of which only the run without a refusal is made."""
    base = unrefused(settings)
    return Sweep(base, findings_unrefused(base), [])


def go_on(
    sweep: Sweep,
    settings: Settings,
    refusals: list[Refusal],
    jobs: int,
    watch: Callable[[Refused], None] = lambda refused: None,
) -> None:
    """Makes a run for each refusal, `jobs` at once. Calls `watch` with each run, in order. After an
    interrupt, the runs that have begun are awaited, and no other begins.
    """

    def tried(refusal: Refusal) -> Refused:
        ran = run(settings, refusal)
        return Refused(refusal, ran, findings_of(ran, sweep.base, refusal))

    pool = ThreadPoolExecutor(jobs)
    try:
        for refused in pool.map(tried, refusals):
            sweep.refused.append(refused)
            watch(refused)
    finally:
        pool.shutdown(cancel_futures=True)
