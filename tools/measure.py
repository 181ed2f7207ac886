#!/usr/bin/env python3
"""Runs the gate and writes its figures to docs/gate.json.

`.ci/run --figures` starts this program, which runs .ci/run at the top of the repository, prints its
output, and adds up the CPU seconds of all toolchain processes, for each crate and kind of process.
It writes no figures if the gate failed, or if `rt ci` took a proof from an earlier run.
`tools/measure.py WORDS..` measures another command, prints the figures and writes nothing. Runs
only on Linux.

`tools/measure.py --wrong` stores how many of the wrong bodies that the gate does not try are known to
be refused by the current crates.
"""

import json
import os
import re
import subprocess
import sys
import threading
import time
from collections import defaultdict
from collections.abc import Mapping
from datetime import date
from pathlib import Path

TOP = Path(__file__).resolve().parent.parent
FIGURES = TOP / "docs" / "gate.json"
TICKS = os.sysconf("SC_CLK_TCK")
TOOLS = {"rattle", "rattle-link", "clang", "lld", "ld.lld"}
KINDS = ("proofs", "tests", "wrong bodies")

Process = tuple[str, str]
Use = tuple[str, str, float]


def status_of(pid: str) -> tuple[str, float, str]:
    """Returns a process's parent, CPU seconds and start time."""
    fields = Path(f"/proc/{pid}/stat").read_text().rsplit(")", 1)[1].split()
    return fields[1], (int(fields[11]) + int(fields[12])) / TICKS, fields[19]


def is_ours(pid: str) -> bool:
    """Returns whether a process is a descendant of this one."""
    while pid not in ("0", "1"):
        if pid == str(os.getpid()):
            return True
        pid = status_of(pid)[0]
    return False


def use_of(pid: str) -> tuple[Process, Use] | None:
    """Returns the resources that a toolchain process has used, or None for any other process."""
    words = Path(f"/proc/{pid}/cmdline").read_bytes().decode(errors="replace").split("\0")
    if os.path.basename(words[0]) not in TOOLS or not is_ours(pid):
        return None
    folder = os.readlink(f"/proc/{pid}/cwd")
    named = words.index("--crate-name") + 1 if "--crate-name" in words else 0
    crate = words[named] if named else "others"
    kind = "wrong bodies" if "rt-edit" in folder else "tests" if "--test" in words else "proofs"
    _, seconds, began = status_of(pid)
    return (pid, began), (crate, kind, seconds)


def watch(uses: dict[Process, Use], is_over: threading.Event) -> None:
    """Records twice a second the resources that each process of the toolchain has used so far."""
    while not is_over.wait(0.5):
        for pid in filter(str.isdigit, os.listdir("/proc")):
            try:
                found = use_of(pid)
            except (OSError, IndexError):
                continue  # The process ended while its usage was read.
            if found is not None:
                uses[found[0]] = found[1]


def run(words: list[str]) -> tuple[list[str], int, float, dict[Process, Use]]:
    """Runs a command and echoes its output; returns the output lines, the exit status, the minutes
    and the resource usage.
    """
    uses: dict[Process, Use] = {}
    is_over = threading.Event()
    watcher = threading.Thread(target=watch, args=(uses, is_over))
    began = time.monotonic()
    watcher.start()
    lines = []
    try:
        with subprocess.Popen(words, cwd=TOP, stdout=subprocess.PIPE, text=True) as process:
            assert process.stdout is not None
            for line in process.stdout:
                print(line, end="", flush=True)
                lines.append(line.rstrip("\n"))
    finally:
        is_over.set()
        watcher.join()
    return lines, process.returncode, (time.monotonic() - began) / 60, uses


def output_of(*words: str) -> str:
    """Returns the first line that a command prints, or an empty string if it cannot be run."""
    try:
        done = subprocess.run(words, cwd=TOP, capture_output=True, text=True, check=True)
    except (OSError, subprocess.CalledProcessError):
        return ""
    return done.stdout.partition("\n")[0]


def machine() -> str:
    """Returns the model of the processor."""
    found = re.search(r"(?m)^model name\s*: (.*)$", Path("/proc/cpuinfo").read_text())
    return found[1] if found else "unknown processor"


def stolen() -> float:
    """Returns the CPU minutes that a virtual machine's host has given to other guests since
    boot.
    """
    fields = Path("/proc/stat").read_text().split("\n", 1)[0].split()
    return int(fields[8]) / TICKS / 60


def figures(lines: list[str], minutes: float, uses: dict[Process, Use]) -> dict[str, object]:
    """Returns the figures of a run of the gate: elapsed minutes and CPU minutes."""
    seconds: defaultdict[tuple[str, str], float] = defaultdict(float)
    for crate, kind, used in uses.values():
        seconds[crate, kind] += used
    by_kind = {kind: sum(s for (_, k), s in seconds.items() if k == kind) for kind in KINDS}
    of_kinds = {kind: round(by_kind[kind] / 60, 1) for kind in KINDS}
    return {
        "date": date.today().isoformat(),
        "commit": output_of("git", "rev-parse", "HEAD"),
        "kit": output_of("rt", "version"),
        "machine": machine(),
        "cores": len(os.sched_getaffinity(0)),
        "load": round(os.getloadavg()[2], 1),
        "result": lines[-1] if lines else "",
        "minutes": round(minutes, 1),
        "processor_minutes": {"in all": round(sum(by_kind.values()) / 60, 1), **of_kinds},
        "processor_seconds_by_crate": {
            crate: {kind: round(seconds[crate, kind]) for kind in KINDS if seconds[crate, kind]}
            for crate in sorted({crate for crate, _ in seconds})
            if any(seconds[crate, kind] for kind in KINDS)
        },
    }


def write(key: str, told: Mapping[str, object]) -> None:
    """Writes one entry of docs/gate.json, and leaves the other entries unchanged."""
    known = json.loads(FIGURES.read_text()) if FIGURES.exists() else {}
    known[key] = told
    FIGURES.write_text(json.dumps(known, indent=1) + "\n")


def why_not_written(lines: list[str], status: int) -> str:
    """Returns why the figures of a run of the gate are not those of a whole run, or nothing."""
    kept = [line for line in lines if re.match(r"rt: [a-z_]+ is kept", line)]
    if status != 0:
        return "the gate failed"
    if kept:
        return f"`rt ci` took {len(kept)} proofs from an earlier run; use a machine that has none"
    return ""


def measure_gate() -> int:
    """Runs the gate, and writes its figures if it was run from nothing and passed."""
    stolen_before = stolen()
    lines, status, minutes, uses = run(["sh", ".ci/run"])
    told = {
        **figures(lines, minutes, uses),
        "stolen_processor_minutes": round(stolen() - stolen_before, 1),
    }
    why = why_not_written(lines, status)
    if why:
        print(f"tools/measure.py: docs/gate.json is as it was: {why}", file=sys.stderr)
        return status or 1
    write("gate", told)
    return 0


def main(words: list[str]) -> int:
    """Runs the gate, or the command in the arguments."""
    if words[:1] == ["--help"]:
        print((__doc__ or "").strip())
        return 0
    if words[:1] == ["--wrong"]:
        where = {"date": date.today().isoformat(), "commit": output_of("git", "rev-parse", "HEAD")}
        known = output_of("tools/soak/wrong_bodies.py", "--known").split()
        write("wrong_bodies", {**where, "refused": int(known[0]), "written": int(known[2])})
        return 0
    if not words:
        return measure_gate()
    lines, status, minutes, uses = run(words)
    print(json.dumps(figures(lines, minutes, uses), indent=1))
    return status


if __name__ == "__main__":
    sys.exit(main(sys.argv[1:]))
