"""What a sweep found, as text and as JSON."""

from __future__ import annotations

import json
import shlex
from typing import Any

from tpmsim.standard import is_session
from tpmsim.sweep.findings import Finding
from tpmsim.sweep.runs import Ran
from tpmsim.sweep.sweeping import Refused, Sweep

Value = dict[str, Any]


def ended(ran: Ran) -> str:
    """Returns how a client ended."""
    if ran.hangs:
        return "did not end"
    return f"signal {-ran.status}" if ran.status < 0 else f"status {ran.status}"


def last_line(ran: Ran) -> str:
    """Returns the last line that a client wrote to standard error."""
    return ran.errors.decode(errors="replace").strip().rpartition("\n")[2]


def named(findings: list[Finding]) -> str:
    return ", ".join(it.value for it in findings)


def of_base(sweep: Sweep) -> list[str]:
    """Returns the lines about the run without a refusal."""
    base = sweep.base
    lines = [f"unrefused: {ended(base)}, {len(base.sent)} commands: {' '.join(base.names)}"]
    if sweep.findings:
        left = " ".join(f"{it:08x}" for it in sorted(base.left) if is_session(it))
        lines.append(f"    FINDING: {named(sweep.findings)}: {left}")
    return lines


def of_run(refused: Refused) -> list[str]:
    """Returns the lines about a run."""
    ran, after = refused.ran, refused.ran.names[refused.refusal.at + 1 :]
    if ran.trouble:
        return [f"{refused.refusal}", f"    not refused: {ran.trouble}"]
    sent = f", then sent {' '.join(after)}" if after else ""
    lines = [f"{refused.refusal}", f"    {ended(ran)}{sent}"]
    if refused.findings:
        lines.append(f"    FINDING: {named(refused.findings)}")
    return lines


def summary(sweep: Sweep) -> str:
    """Returns the last line of a report."""
    counts = (f"{count} {words}" for words, count in by_name(sweep).items())
    not_met = sum(bool(it.ran.trouble) for it in sweep.refused)
    more = f", {not_met} not refused" if not_met else ""
    found = "; ".join(counts) or "none"
    return f"{len(sweep.refused)} runs with a refusal{more}; findings: {found}"


def by_name(sweep: Sweep) -> dict[str, int]:
    """Returns how often each finding was made."""
    found = [*sweep.findings, *(it for run in sweep.refused for it in run.findings)]
    return {it.value: found.count(it) for it in Finding if it in found}


def value_of_run(ran: Ran) -> Value:
    return {
        "status": ran.status,
        "hangs": ran.hangs,
        "seconds": round(ran.seconds, 3),
        "output": ran.output.decode(errors="replace"),
        "errors": ran.errors.decode(errors="replace"),
        "sent": [{"command": it.name, "row": str(it.met)} for it in ran.sent],
        "left": [f"{it:08x}" for it in sorted(ran.left)],
    }


def value_of(refused: Refused, base: Ran) -> Value:
    refusal = refused.refusal
    return {
        "place": refusal.at + 1,
        "command": refusal.name,
        "check": refusal.met.check,
        "code": f"{refusal.met.code:03x}",
        "name": refusal.code_name,
        "change": refusal.words,
        "faked": refusal.is_faked,
        "trouble": refused.ran.trouble,
        "same_output": refused.ran.output == base.output,
        "findings": [it.value for it in refused.findings],
        **value_of_run(refused.ran),
    }


def as_json(words: tuple[str, ...], sweep: Sweep) -> str:
    """Returns a sweep as JSON."""
    found = [it.value for it in sweep.findings]
    told = {
        "client": shlex.join(words),
        "unrefused": {**value_of_run(sweep.base), "findings": found},
        "runs": [value_of(it, sweep.base) for it in sweep.refused],
        "findings": by_name(sweep),
    }
    return json.dumps(told, indent=1)
