"""Measures a device in a folder, and prints a table:

    tools/python.sh tools/bench/kept.py MODULE CLIENT DISK [ROUNDS]

MODULE is the module for libtss2, CLIENT a program built from attached.c, and DISK a folder on a
disk. Each row contains the medians of the elapsed time and of the processor time, in microseconds,
and the number of instructions that valgrind counts.
"""

import os
import re
import statistics
import subprocess
import sys
import tempfile
import time
from dataclasses import dataclass
from pathlib import Path

ROUNDS = 15
# How often a process repeats a task: executing a command, or opening a device, which takes 400
# times as long.
COMMANDS, OPENINGS = 1000, 20
# The numbers of commands before the opening. After 1,500 commands the journal has almost its
# maximum size; a few commands later, the library restarts it.
OPENED_AFTER = 900, 1_500, 60_000
TOOL = ["tpm2_getrandom", "-f", "--hex", "16"]


@dataclass(frozen=True)
class Cost:
    """The cost of a process: elapsed and processor time in microseconds."""

    elapsed: float
    processor: float


def run(words: list[str], transport: str) -> Cost:
    """Runs a program, which must succeed, and returns its cost."""
    environment = os.environ | {"TPM2TOOLS_TCTI": transport}
    nowhere, before = subprocess.DEVNULL, time.perf_counter()
    process = subprocess.Popen(words, env=environment, stdout=nowhere, stderr=nowhere)
    _, status, used = os.wait4(process.pid, 0)
    elapsed = time.perf_counter() - before
    process.returncode = os.waitstatus_to_exitcode(status)
    if process.returncode:
        raise SystemExit(f"{' '.join(words)} ended with status {process.returncode}")
    return Cost(elapsed * 1e6, (used.ru_utime + used.ru_stime) * 1e6)


def instructions(words: list[str], transport: str) -> int:
    """Returns the total number of instructions that a program executes."""
    counting = ["valgrind", "--tool=callgrind", "--callgrind-out-file=/dev/null"]
    environment = os.environ | {"TPM2TOOLS_TCTI": transport}
    done = subprocess.run(
        [*counting, *words], env=environment, check=True, capture_output=True, text=True
    )
    found = re.search(r"Collected : (\d+)", done.stderr)
    if found is None:
        raise SystemExit(f"valgrind counts nothing: {done.stderr}")
    return int(found[1])


def median(costs: list[Cost]) -> Cost:
    return Cost(
        statistics.median(it.elapsed for it in costs),
        statistics.median(it.processor for it in costs),
    )


def row(label: str, cost: Cost, counted: float) -> None:
    print(f"| {label} | {cost.elapsed:,.1f} | {cost.processor:,.1f} | {counted:,.0f} |", flush=True)


def measure_tool(transport: str, rounds: int) -> None:
    run(["tpm2_startup", "-c"], transport)
    cost = median([run(TOOL, transport) for _ in range(rounds)])
    row("tpm2_getrandom 16, start to end", cost, instructions(TOOL, transport))


def elapsed_of_one(client: str, transport: str, act: str, count: int) -> float:
    """Returns the median time of one repetition, for a process that repeats a task `count` times.
    """
    words = [client, transport, act, str(count)]
    output = subprocess.run(words, check=True, capture_output=True, text=True).stdout
    return float(output.split()[1])


@dataclass(frozen=True)
class Act:
    """A task that a client repeats `count` times in one process."""

    label: str
    name: str
    count: int


def measure_act(act: Act, client: str, transport: str, rounds: int) -> None:
    """Measures a task. The processor time and the instructions are the difference between a process
    that repeats the task and a process that performs it once.
    """
    words = [[client, transport, act.name, str(count)] for count in (1, act.count + 1)]
    elapsed = [elapsed_of_one(client, transport, act.name, act.count) for _ in range(rounds)]
    few, many = (median([run(it, transport) for _ in range(rounds)]).processor for it in words)
    once, often = (instructions(it, transport) for it in words)
    cost = Cost(statistics.median(elapsed), (many - few) / act.count)
    row(act.label, cost, (often - once) / act.count)


def measure_opening(client: str, transport: str, commands: int, journal: Path, rounds: int) -> None:
    subprocess.run([client, transport, "getrandom", str(commands)], check=True, capture_output=True)
    label = f"opening after {commands:,} commands, {journal.stat().st_size:,} bytes"
    measure_act(Act(label, "open", OPENINGS), client, transport, rounds)


def measure(module: str, client: str, disk: str, rounds: int = ROUNDS) -> None:
    with tempfile.TemporaryDirectory(dir=disk) as folder:
        state = Path(folder) / "state"
        print("| a device in a folder | us | us of the processor | instructions |")
        print("|---|---|---|---|")
        measure_tool(f"{module}:state={state}", rounds)
        for force in "power", "always":
            transport = f"{module}:state={state},force={force}"
            for command, label in (("getrandom", "GetRandom"), ("extend", "PCR_Extend")):
                text = f"{label} in a process that stays, force={force}"
                measure_act(Act(text, command, COMMANDS), client, transport, rounds)
        for commands in OPENED_AFTER:
            state = Path(folder) / str(commands)
            transport = f"{module}:state={state},force=never"
            measure_opening(client, transport, commands, state / "journal", rounds)


if __name__ == "__main__":
    measure(sys.argv[1], sys.argv[2], sys.argv[3], *map(int, sys.argv[4:5]))
