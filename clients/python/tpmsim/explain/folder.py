"""Finds the logs in a folder: the journals of a device, or those of a virtual machine's boots."""

import os
import pathlib
import re
from dataclasses import dataclass

from tpmsim.faults import TpmsimError

JOURNAL = "journal"
PAST = re.compile(r"journal\.([1-9][0-9]*)")
BOOT = re.compile(r"boot-([0-9]+)\.tpm")
# The words of a TCTI that name a folder, and the variables that may hold such words.
OF_TCTI = re.compile(r"(?:^|:)tpmsim:(?:[^,]*,)*?state=([^,]+)")
VARIABLES = "TPM2TOOLS_TCTI", "TCTI", "TPM2OPENSSL_TCTI", "TPM2_PKCS11_TCTI"
# How often a folder is read again if a power cycle has replaced its journal in the meantime.
MOST_READS = 16


class NoLog(TpmsimError):
    """A folder has no log, or has several devices."""


@dataclass(frozen=True)
class Logs:
    """The logs of a folder, the oldest first."""

    files: list[tuple[pathlib.Path, bytes]]

    @property
    def text(self) -> bytes:
        return b"".join(text for _, text in self.files)

    @property
    def words(self) -> str:
        """Returns which lines are those of which file, if there are several."""
        if len(self.files) < 2:
            return ""
        said, line = list[str](), 1
        for path, text in self.files:
            said.append(f"{path.name} from line {line} on")
            line += text.count(b"\n")
        return f"{self.files[0][0].parent} has {len(self.files)} logs: {', '.join(said)}."


def of_environment() -> str:
    """Returns the folder that the environment names for libtss2's module; empty if there is none."""
    for name in VARIABLES:
        found = OF_TCTI.search(os.environ.get(name, ""))
        if found:
            return found[1]
    return ""


def logs_of(folder: pathlib.Path) -> Logs:
    """Reads the logs of a folder. If only a folder in it has logs, reads those. Raises NoLog if it has
    no log, or OSError.
    """
    if paths_in(folder):
        return read_all(folder)
    inner = [it for it in sorted(folder.iterdir()) if it.is_dir() and paths_in(it)]
    if len(inner) == 1:
        return read_all(inner[0])
    if inner:
        names = ", ".join(str(it) for it in inner[:8])
        raise NoLog(f"{folder} has {len(inner)} devices; name one of {names}")
    raise NoLog(f"{folder} has no journal of a device, and no log boot-N.tpm of a virtual machine")


def paths_in(folder: pathlib.Path) -> list[pathlib.Path]:
    """Returns the paths of the logs in a folder, the oldest first."""
    try:
        names = os.listdir(folder)
    except PermissionError:
        return []
    past = sorted((-int(it[1]), it[0]) for it in map(PAST.fullmatch, names) if it)
    boots = sorted((int(it[1]), it[0]) for it in map(BOOT.fullmatch, names) if it)
    current = [JOURNAL] if JOURNAL in names else []
    return [folder / it for it in [name for _, name in past] + current or [n for _, n in boots]]


def read_all(folder: pathlib.Path) -> Logs:
    """Reads the logs of a folder. While they are read, a process may begin a new journal; then they
    are read again.
    """
    files = list[tuple[pathlib.Path, bytes]]()
    for _ in range(MOST_READS):
        before = identities(folder)
        try:
            files = [(it, it.read_bytes()) for it in paths_in(folder)]
        except FileNotFoundError:
            continue
        if identities(folder) == before:
            break
    return Logs(files)


def identities(folder: pathlib.Path) -> list[tuple[str, int]]:
    """Returns the names of the logs, each with the number of its file."""
    found = list[tuple[str, int]]()
    for it in paths_in(folder):
        try:
            found.append((it.name, it.stat().st_ino))
        except FileNotFoundError:
            found.append((it.name, 0))
    return found
