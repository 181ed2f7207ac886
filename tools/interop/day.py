#!/usr/bin/env python3
"""Plays an administrator's working day: the 256 steps of day.steps, which use Debian's tpm2-tools.
The steps are played on swtpm, and on tpmsim through the module for libtss2, and the two outcomes of
each step are compared. Not part of the gate. It installs nothing, and leaves no files.

    tools/interop/day.py

Needs Debian's tpm2-tools, swtpm, swtpm-tools and what `hosts/build.sh tcti` needs. TPMSIM_ARCHIVE
names another archive of the library. It prints how many steps pass on each device, and which steps
pass on swtpm but not on tpmsim, grouped by reason. A step is WRONG if it passes only on swtpm and
has no reason, or if it has a reason but passes on tpmsim. The status is 1 if a step is WRONG.
"""

from __future__ import annotations

import shutil
import subprocess
import sys
import tempfile
from collections.abc import Callable, Iterator
from concurrent.futures import ThreadPoolExecutor
from pathlib import Path

from devices import TOP, Device, Module, Swtpm
from reasons import REASONS
from steps import Outcome, Step, play, read_steps

HERE = Path(__file__).resolve().parent
NEEDED = ("tpm2", "swtpm", "swtpm_ioctl", "cc", "xxd")

Maker = Callable[[], Device]


def build_module(folder: Path) -> Path:
    """Builds the module for libtss2 and tpmsim-power in a folder, and returns the folder."""
    subprocess.run([TOP / "hosts" / "build.sh", "tcti", folder], check=True)
    return folder


def play_all(makers: list[Maker], steps: list[Step]) -> list[list[Outcome]]:
    """Plays the steps on all devices at the same time."""
    devices: list[Device] = []
    try:
        for make in makers:
            devices.append(make())
        with ThreadPoolExecutor() as pool:
            return list(pool.map(lambda device: list(play(device, steps)), devices))
    finally:
        for device in devices:
            device.stop()


def is_less(swtpm: Outcome, tpmsim: Outcome) -> bool:
    return swtpm.passed and not tpmsim.passed


def wrong_steps(swtpm: list[Outcome], tpmsim: list[Outcome]) -> Iterator[str]:
    """Yields a line for each step whose reason is missing, unknown or unnecessary."""
    for theirs, ours in zip(swtpm, tpmsim, strict=True):
        step = ours.step
        if is_less(theirs, ours) and step.reason not in REASONS:
            yield f"{step}: it passes on swtpm alone, and has no reason: {ours.said}"
        elif step.reason and not is_less(theirs, ours):
            yield f"{step}: it has the reason {step.reason}, and needs none: {theirs.said}"


def print_reasons(swtpm: list[Outcome], tpmsim: list[Outcome]) -> None:
    pairs = [ours for theirs, ours in zip(swtpm, tpmsim, strict=True) if is_less(theirs, ours)]
    for name, sentence in REASONS.items():
        steps = [ours for ours in pairs if ours.step.reason == name]
        if steps:
            print(f"{name}, {len(steps)} steps: {sentence}")
        for ours in steps:
            print(f"    {ours.step}\n        {ours.said}")


def count(name: str, outcomes: list[Outcome]) -> str:
    return f"{name} passes {sum(outcome.passed for outcome in outcomes)} of {len(outcomes)} steps"


def without_asymmetric(outcomes: list[Outcome]) -> list[Outcome]:
    return [outcome for outcome in outcomes if outcome.step.reason != "asymmetric"]


def need(tools: tuple[str, ...]) -> None:
    """Ends the program if a tool is missing."""
    for tool in tools:
        if not shutil.which(tool):
            sys.exit(f"{sys.argv[0]}: there is no {tool}; the head of this file says what is needed")


def main() -> int:
    need(NEEDED)
    steps = read_steps(HERE / "day.steps")
    with tempfile.TemporaryDirectory() as name:
        work = Path(name)
        made = build_module(work / "made")
        makers: list[Maker] = [lambda: Swtpm(work / "swtpm"), lambda: Module(work / "tpmsim", made)]
        swtpm, tpmsim = play_all(makers, steps)
    print_reasons(swtpm, tpmsim)
    wrong = list(wrong_steps(swtpm, tpmsim))
    for line in wrong:
        print(f"WRONG: {line}")
    print(count("swtpm", swtpm))
    print(count("tpmsim", tpmsim))
    print(f"without asymmetric keys: {count('swtpm', without_asymmetric(swtpm))}")
    print(f"without asymmetric keys: {count('tpmsim', without_asymmetric(tpmsim))}")
    return 1 if wrong else 0


if __name__ == "__main__":
    sys.exit(main())
