"""Parses files of steps that use tpm2-tools, and plays the steps on a device. day.steps describes
the format of these files.
"""

from __future__ import annotations

import dataclasses
import re
import subprocess
from collections.abc import Iterator
from pathlib import Path

from devices import Device

LIMIT_S = 60
POWER = "power"
REFUSED = re.compile(r"!([0-9a-f]+) (.*)")
REASON = re.compile(r"(.*\S)\s+# (\w[\w-]*)")
TOOL = re.compile(r"\btpm2_(\w+)")


@dataclasses.dataclass(frozen=True)
class Step:
    """A step: one line of a file of steps."""

    command: str
    # The response code with which the device must refuse the step's command, or empty if it must
    # succeed.
    code: str = ""
    # The name of the reason why the step passes only on swtpm, or empty if it also passes on
    # tpmsim.
    reason: str = ""
    # Whether the outcome of the step is compared. The outcomes of preparations and power cycles are
    # not compared.
    counts: bool = True

    @property
    def tools(self) -> list[str]:
        return TOOL.findall(self.command)

    def __str__(self) -> str:
        return f"!{self.code} {self.command}" if self.code else self.command


@dataclasses.dataclass(frozen=True)
class Outcome:
    """The outcome of a step: whether it passed, and the last line of standard error."""

    step: Step
    passed: bool
    said: str


def read_step(line: str) -> Step:
    if line == POWER or line.startswith("$ "):
        return Step(line.removeprefix("$ "), counts=False)
    code, reason = "", ""
    if match := REASON.fullmatch(line):
        line, reason = match.groups()
    if match := REFUSED.fullmatch(line):
        code, line = match.groups()
    return Step(line, code, reason)


def read_steps(path: Path) -> list[Step]:
    lines = path.read_text().splitlines()
    return [read_step(line) for line in lines if line and not line.startswith(("#", "=="))]


def last_line(text: str) -> str:
    """Returns the last line that reports a failure or, if no line does, the last line."""
    lines = [line for line in text.splitlines() if line.strip()]
    told = [line for line in lines if "0x" in line]
    return (told or lines or [""])[-1]


def run(device: Device, command: str) -> subprocess.CompletedProcess[str]:
    """Runs a shell command in the device's folder."""
    words = ["timeout", "-k", "1", str(LIMIT_S), "sh", "-c", command]
    return subprocess.run(
        words, cwd=device.folder, env=device.environment(), capture_output=True, text=True, errors="replace"
    )


def play_step(device: Device, step: Step) -> Outcome:
    done = run(device, step.command)
    if device.is_flushed and step.tools:
        run(device, "tpm2_flushcontext -t; tpm2_flushcontext -l")
    if step.code:
        is_refused = re.search(rf"0x0*{step.code}\b", done.stderr, re.IGNORECASE) is not None
        return Outcome(step, done.returncode != 0 and is_refused, last_line(done.stderr))
    return Outcome(step, done.returncode == 0, last_line(done.stderr))


def play(device: Device, steps: list[Step]) -> Iterator[Outcome]:
    """Plays all steps, and yields the outcome of each step that counts."""
    for step in steps:
        if step.command == POWER:
            device.power()
        elif step.counts:
            yield play_step(device, step)
        elif (prepared := run(device, step.command)).returncode != 0:
            raise SystemExit(f"{step.command}: {prepared.stderr}")
