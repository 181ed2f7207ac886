#!/usr/bin/env python3
"""Runs each tool of Debian's tpm2-tools, with the steps of day.steps and rest.steps, on tpmsim
through the module for libtss2, on tpmsim as a server, and on swtpm. Then compares the outcomes with
the list of tools in docs/TOOLS.md. Not part of the gate. It installs nothing, and leaves no files.

    tools/interop/tool_table.py           reports if the document differs from the outcomes
    tools/interop/tool_table.py --write   writes the list into the document

Needs what day.py needs, and socat. The status is 1 if the document differs, if a tool has no step, or if a
step is WRONG in the sense of day.py.
"""

from __future__ import annotations

import dataclasses
import difflib
import subprocess
import sys
import tempfile
import textwrap
from collections.abc import Iterator
from pathlib import Path

from day import HERE, NEEDED, Maker, build_module, is_less, need, play_all, wrong_steps
from devices import TOP, Module, Served, Swtpm
from reasons import REASONS
from steps import Outcome, read_steps

DOCUMENT = TOP / "docs" / "TOOLS.md"
BEGIN, END = "<!-- tools -->\n", "<!-- end of tools -->\n"
COLUMNS = 118


@dataclasses.dataclass
class Results:
    """The outcomes of all steps on each device, in the same order. The steps of day.steps come
    first.
    """

    of_day: int = 0
    swtpm: list[Outcome] = dataclasses.field(default_factory=list)
    tpmsim: list[Outcome] = dataclasses.field(default_factory=list)
    served: list[Outcome] = dataclasses.field(default_factory=list)

    def reasons_of(self, tool: str) -> set[str]:
        """Returns the reasons of those steps of a tool that pass only on swtpm."""
        pairs = zip(self.swtpm, self.tpmsim, strict=True)
        return {ours.step.reason for theirs, ours in pairs if is_less(theirs, ours) and tool in ours.step.tools}


def does(tool: str, outcomes: list[Outcome]) -> bool:
    """Returns whether a step of the tool passes."""
    return any(outcome.passed for outcome in outcomes if tool in outcome.step.tools)


def all_tools() -> list[str]:
    """Returns the names of all tools in the package tpm2-tools."""
    listed = subprocess.run(["dpkg", "-L", "tpm2-tools"], check=True, capture_output=True, text=True)
    names = (Path(line).name for line in listed.stdout.splitlines() if "/bin/tpm2_" in line)
    return sorted(name.removeprefix("tpm2_") for name in names)


def play_files(work: Path) -> Results:
    results = Results()
    made = build_module(work / "made")
    for name in ("day", "rest"):
        folder = work / name
        folder.mkdir()
        makers: list[Maker] = [
            lambda: Swtpm(folder / "swtpm"),
            lambda: Module(folder / "tpmsim", made),
            lambda: Served(folder / "served"),
        ]
        swtpm, tpmsim, served = play_all(makers, read_steps(HERE / f"{name}.steps"))
        results.of_day = results.of_day or len(swtpm)
        results.swtpm += swtpm
        results.tpmsim += tpmsim
        results.served += served
    return results


def passed(outcomes: list[Outcome]) -> int:
    return sum(outcome.passed for outcome in outcomes)


def listed(tools: list[str]) -> str:
    return ", ".join(tools) or "-"


def rows(tools: list[str], results: Results) -> Iterator[str]:
    """Yields the rows of the table: one for each reason that applies to at least one tool, with the
    tools to which it applies.
    """
    for reason, sentence in REASONS.items():
        less = [tool for tool in tools if reason in results.reasons_of(tool)]
        if less:
            not_at_all = [tool for tool in less if not does(tool, results.tpmsim)]
            in_part = [tool for tool in less if does(tool, results.tpmsim)]
            yield f"| {sentence} | {listed(not_at_all)} | {listed(in_part)} |"


def paragraph(text: str) -> str:
    return textwrap.fill(text, COLUMNS, break_long_words=False, break_on_hyphens=False) + "\n"


def block(tools: list[str], results: Results) -> str:
    """Returns the text that the document must contain between its marks."""
    whole = [tool for tool in tools if does(tool, results.tpmsim) and not results.reasons_of(tool)]
    served = [tool for tool in tools if does(tool, results.served)]
    nowhere = [tool for tool in tools if not does(tool, results.swtpm) and not does(tool, results.tpmsim)]
    theirs, ours = (passed(each[: results.of_day]) for each in (results.swtpm, results.tpmsim))
    parts = [
        f"Of the {results.of_day} steps of a working day, swtpm passes {theirs} and a device in a folder {ours}. On a device "
        f"in a folder, {len(whole)} of the {len(tools)} tools do all that they do on swtpm: {listed(whole)}.",
        "The other tools do less on a device in a folder than on swtpm, for these reasons:",
        f"Tools that do nothing on either TPM: {listed(nowhere)}.",
        f"On a served device, these {len(served)} tools do at least part of their work: {listed(served)}.",
    ]
    paragraphs = [paragraph(part) for part in parts]
    head = "| reason | tools that do nothing | tools that do the rest of their work |\n|---|---|---|\n"
    table = head + "\n".join(rows(tools, results)) + "\n"
    return "\n".join([*paragraphs[:2], table, *paragraphs[2:]])


def put(text: str, new: str) -> str:
    """Returns the document with a new text between its marks."""
    front, _, rest = text.partition(BEGIN)
    _, _, back = rest.partition(END)
    return front + BEGIN + new + END + back


def main() -> int:
    need((*NEEDED, "socat"))
    with tempfile.TemporaryDirectory() as name:
        results = play_files(Path(name))
    tools = all_tools()
    wrong = list(wrong_steps(results.swtpm, results.tpmsim))
    tried = {tool for outcome in results.swtpm for tool in outcome.step.tools}
    wrong += [f"no step uses tpm2_{tool}" for tool in tools if tool not in tried]
    for line in wrong:
        print(f"WRONG: {line}")
    text = DOCUMENT.read_text()
    new = put(text, block(tools, results))
    if "--write" in sys.argv[1:]:
        DOCUMENT.write_text(new)
    elif new != text:
        wrong.append("the document")
        lines = difflib.unified_diff(text.splitlines(), new.splitlines(), str(DOCUMENT), "found", lineterm="")
        print(*lines, sep="\n")
    print(f"{len(tools)} tools were tried, {len(wrong)} wrong")
    return 1 if wrong else 0


if __name__ == "__main__":
    sys.exit(main())
