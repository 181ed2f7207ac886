#!/usr/bin/env python3
"""Sweeps clients with tpmsim-sweep, and compares what it finds with sweep.findings.

    tools/python.sh tools/interop/sweep.py [--write] [--jobs N] [TITLE..]

Each client runs once unrefused, and once for each refusal that its commands could meet, with a
device that has the objects and indices of `write_state`. A finding that sweep.findings lacks, and
one that only sweep.findings has, is a FAILED line. Each script in examples/clients must show its
fault. `--write` writes the findings instead. With TITLEs, only these parts are swept. Not part of
the gate. It installs nothing, and leaves no files.

Needs Debian's tpm2-tools, clevis-tpm2, python3-tpm2-pytss, tpm2-abrmd, libtss2-tcti-tabrmd0, dbus,
tss2, swtpm and socat. A part that lacks a tool is reported as skipped. The status is 1 if a line is
FAILED.
"""

from __future__ import annotations

import argparse
import json
import os
import shutil
import subprocess
import sys
import tempfile
from collections.abc import Iterator
from dataclasses import dataclass, field
from pathlib import Path

from tpmsim.caller import area, bits, BY_OWNER, BY_VALUE, Caller, counter, digest_of, extended
from tpmsim.caller import HERE, hmac_key, sealed, storage_key
from tpmsim.device import Device
from tpmsim.standard import nv, RH_OWNER
from tpmsim.standard.objects import Attribute

FOLDER = Path(__file__).resolve().parent
FINDINGS, CLIENTS = FOLDER / "sweep.findings", FOLDER.parents[1] / "examples" / "clients"
TITLE, NEEDS, INDENT = "== ", "needs ", "    "

# A client hangs if it has not ended after this time; tpm2-abrmd's needs seconds on a busy machine.
SECONDS = "120"


@dataclass
class Client:
    """A client's command line, and what a sweep of it finds."""

    command: str
    findings: list[str] = field(default_factory=list)


@dataclass
class Part:
    """Clients that need the same tools."""

    title: str
    needs: list[str] = field(default_factory=list)
    clients: list[Client] = field(default_factory=list)

    @property
    def lacks(self) -> str:
        """The first tool that is missing."""
        return next((it for it in self.needs if not is_there(it)), "")


def is_there(tool: str) -> bool:
    """Whether a program is installed; after `python:`, a module of the system's Python."""
    if tool.startswith("python:"):
        words = ["/usr/bin/python3", "-c", f"import {tool.removeprefix('python:')}"]
        return subprocess.run(words, capture_output=True).returncode == 0
    return shutil.which(tool) is not None


def read_parts(text: str) -> Iterator[Part]:
    """Yields the parts of sweep.findings, whose first lines describe it."""
    part = Part("")
    for line in text.splitlines():
        if line.startswith(TITLE):
            part = Part(line.removeprefix(TITLE))
            yield part
        elif line.startswith(NEEDS):
            part.needs = line.split()[1:]
        elif line.startswith(INDENT):
            part.clients[-1].findings.append(line.strip())
        elif line and not line.startswith("#"):
            part.clients.append(Client(line))


def write_state(path: Path) -> None:
    """Writes the state text of a device with three sealed objects and keys, and four indices. PIN
    and key are their authorization values.
    """
    with Device(seed=b"sweep.py") as device:
        tpm = Caller(device)
        tpm.start_up()
        gate = digest_of(f"PolicyPCR sha256:16={bytes(32).hex()}")
        behind = sealed(attributes=HERE | Attribute.NO_DA, auth_policy=gate)
        guarded = sealed(attributes=HERE | Attribute.USER_WITH_AUTH)
        for at, public, choices in (
            (0x8100_0001, storage_key(), {}),
            (0x8100_0002, guarded, {"user_auth": b"PIN", "data": b"secret"}),
            (0x8100_0003, behind, {"data": b"secret"}),
            (0x8100_0004, hmac_key(), {"user_auth": b"PIN", "data": b"key"}),
        ):
            made = tpm.create_primary(public, **choices)
            tpm.send(tpm.evicting(RH_OWNER, made, at))
            tpm.send(tpm.flush(made))
        locks = nv.Attribute.READ_STCLEAR | nv.Attribute.WRITE_STCLEAR
        tpm.define(area(0x0100_0001, BY_VALUE | BY_OWNER | locks, size=16), auth=b"PIN")
        tpm.send(tpm.writing(0x0100_0001, b"sixteen bytes 16", by=RH_OWNER))
        tpm.define(counter(0x0100_0002), auth=b"PIN")
        tpm.define(bits(0x0100_0003), auth=b"PIN")
        tpm.define(extended(0x0100_0004), auth=b"PIN")
        path.write_bytes(device.snapshot())


def write_files(folder: Path) -> None:
    """Writes the files that the clients read, and copies their scripts."""
    (folder / "data").write_bytes(bytes(16))
    (folder / "secret").write_text("secret")
    for it in (FOLDER / "swept").iterdir():
        shutil.copy(it, folder)


def swept(command: str, folder: Path, jobs: str) -> tuple[int, list[str]]:
    """Sweeps a client. Returns the number of runs, and a line for each finding."""
    words = [sys.executable, "-m", "tpmsim.sweep.main", "--json", "--timeout", SECONDS]
    words += ["--from", str(folder / "state"), "--copy", str(folder / "work"), "--jobs", jobs]
    done = subprocess.run([*words, "--", "sh", "-c", command], capture_output=True, text=True)
    if done.returncode not in (0, 1):
        return 0, [f"not swept: {done.stderr.strip()}"]
    told = json.loads(done.stdout)
    found = {f"unrefused: {it}" for it in told["unrefused"]["findings"]}
    for run in told["runs"]:
        row = f"{run['command']} {run['check']} {run['name']}"
        found |= {f"{row}: {it}" for it in run["findings"]}
    return len(told["runs"]), sorted(found)


def compared(client: Client, found: list[str]) -> list[str]:
    """Returns a line for each finding that is new, and for each that is missing."""
    new = [f"is new: {it}" for it in found if it not in client.findings]
    return new + [f"is missing: {it}" for it in client.findings if it not in found]


def show_faults() -> Iterator[str]:
    """Runs the scripts in examples/clients. Yields a line for each that does not show its fault."""
    for script in sorted(CLIENTS.glob("*.sh")):
        if script.name == "sweep.sh":
            continue
        for tpm in [], ["swtpm"]:
            words = ["sh", str(script), *tpm]
            done = subprocess.run(words, capture_output=True, text=True)
            if done.returncode:
                said = (done.stdout + done.stderr).strip().rpartition("\n")[2]
                yield f"{' '.join([script.name, *tpm])}: status {done.returncode}: {said}"


def sweep_all(parts: list[Part], folder: Path, jobs: str) -> Iterator[tuple[Client, list[str]]]:
    """Yields each client with what was found, and prints a line for it."""
    for part in parts:
        print(f"{TITLE}{part.title}" + (f": skipped: no {part.lacks}" if part.lacks else ""))
        for client in [] if part.lacks else part.clients:
            count, found = swept(client.command, folder, jobs)
            print(f"{count} runs, {len(found)} findings: {client.command}", flush=True)
            yield client, found


def written(text: str, found: dict[str, list[str]]) -> str:
    """Returns the text of sweep.findings with other findings of these clients."""
    lines, client = list[str](), ""
    for line in text.splitlines():
        if not line.startswith(INDENT):
            client = line
            lines += [line, *(INDENT + it for it in found.get(client, []))]
        elif client not in found:
            lines.append(line)
    return "\n".join(lines) + "\n"


def main() -> int:
    words = argparse.ArgumentParser(description=__doc__, add_help=True)
    words.add_argument("--write", action="store_true")
    words.add_argument("--jobs", default="2")
    words.add_argument("titles", nargs="*", metavar="TITLE")
    given = words.parse_args()
    text = FINDINGS.read_text()
    parts = [it for it in read_parts(text) if not given.titles or it.title in given.titles]
    failed, found = list[str](), dict[str, list[str]]()
    os.environ.update(TSS2_LOG="all+none", PATH=f"{os.environ['PATH']}:/usr/sbin:/sbin")
    with tempfile.TemporaryDirectory(prefix="tpmsim-") as name:
        folder = Path(name)
        (folder / "work").mkdir()
        write_files(folder / "work")
        write_state(folder / "state")
        for client, those in sweep_all(parts, folder, given.jobs):
            found[client.command] = those
            failed += [f"{client.command}: {it}" for it in compared(client, those)]
    if given.write:
        FINDINGS.write_text(written(text, found))
        return 0
    failed += show_faults() if not given.titles else []
    for line in failed:
        print(f"FAILED: {line}")
    print(f"{len(found)} clients, {len(failed)} failed")
    return 1 if failed else 0


if __name__ == "__main__":
    sys.exit(main())
