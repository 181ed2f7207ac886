"""Packs the package as a wheel, using only Python's standard library. pip calls these functions
(PEP 517 and 660), and tools/wheel.py calls `write_wheel`. Nothing is written next to the sources.

A wheel for one type of machine contains the libraries and the program of dist/, so that it needs
nothing else.
"""

import base64
import dataclasses
import hashlib
import io
import os
import pathlib
import platform
import re
import sys
import tarfile
import time
import tomllib
import zipfile
from typing import Any, Iterator

SOURCES = pathlib.Path(__file__).resolve().parents[1]
sys.path.insert(0, str(SOURCES))
# Python must write no bytecode next to the sources.
sys.dont_write_bytecode = sys.pycache_prefix is None

import call_types  # noqa: E402

DISTRIBUTION = SOURCES.parents[1] / "dist"
LIBRARY, KEPT_LIBRARY, PROGRAM = "libtpmsim.so.0", "libtpmsim-kept.so.0", "tpmsim"

# The HTML page that shows explained logs, and the page's path in the package.
PAGE, PAGE_PLACE = DISTRIBUTION / "tpmsim.html", "tpmsim/explain/tpmsim.html"

# The version of glibc that the program `tpmsim` and the libraries need.
GLIBC = 2, 34

# The earliest time that a zip file can store.
FIRST_TIME = 315_532_800

Settings = dict[str, Any] | None


@dataclasses.dataclass(frozen=True)
class Entry:
    """A file of a wheel or a source distribution."""

    name: str
    data: bytes
    mode: int = 0o644


def told() -> dict[str, Any]:
    with open(SOURCES / "pyproject.toml", "rb") as file:
        return tomllib.load(file)


def project() -> dict[str, Any]:
    found: dict[str, Any] = told()["project"]
    return found


def stem() -> str:
    return f"{project()['name']}-{project()['version']}"


def sources() -> list[pathlib.Path]:
    """Returns the paths of the package's modules and data, sorted by name."""
    found = set(SOURCES.glob(f"{project()['name']}/**/*.py"))
    for package, patterns in told()["tool"]["tpmsim"]["package-data"].items():
        for pattern in patterns:
            found |= set((SOURCES / package.replace(".", "/")).glob(pattern))
    return sorted(found)


def package() -> list[Entry]:
    """Returns all files of the package: its sources, the types of its calls and, in a clone of the
    repository, the page.
    """
    files = [Entry(it.relative_to(SOURCES).as_posix(), it.read_bytes()) for it in sources()]
    files.append(Entry(call_types.PLACE, call_types.stub().encode("ascii")))
    return [*files, Entry(PAGE_PLACE, PAGE.read_bytes())] if PAGE.is_file() else files


def metadata() -> str:
    """Returns the metadata of the installed package, with its README."""
    facts = project()
    lines = [
        f"Metadata-Version: 2.1\nName: {facts['name']}\nVersion: {facts['version']}",
        f"Summary: {facts['description']}",
        *(f"Maintainer-email: {it['email']}" for it in facts["maintainers"]),
        *(f"Project-URL: {name}, {url}" for name, url in facts["urls"].items()),
        f"Keywords: {','.join(facts['keywords'])}",
        *(f"Classifier: {it}" for it in facts["classifiers"]),
        f"Requires-Python: {facts['requires-python']}",
        "Description-Content-Type: text/markdown",
    ]
    return "\n".join([*lines, "", description()])


def description() -> str:
    """Returns the text of the README. A link to a file outside the package becomes its words."""
    text = (SOURCES / project()["readme"]).read_text("utf-8")
    return re.sub(r"\[([^]]*)\]\((?!https?:|#)[^)]*\)", r"\1", text)


def entry_points() -> str:
    facts = project()
    groups = {"console_scripts": facts["scripts"], **facts["entry-points"]}
    return "".join(
        f"[{group}]\n" + "".join(f"{key} = {value}\n" for key, value in entries.items())
        for group, entries in groups.items()
    )


def shipped(machine: str) -> pathlib.Path:
    """Returns the folder of the files that are shipped for a machine."""
    return DISTRIBUTION / machine if machine == "aarch64" else DISTRIBUTION


def tag(machine: str | None) -> str:
    """Returns the tag of a wheel, which names the Python and the machine that the wheel is for."""
    return f"py3-none-manylinux_{GLIBC[0]}_{GLIBC[1]}_{machine}" if machine else "py3-none-any"


def described(machine: str | None) -> list[Entry]:
    """Returns the files that describe a wheel, except its RECORD."""
    wheel = (
        f"Wheel-Version: 1.0\nGenerator: tpmsim\nRoot-Is-Purelib: {str(not machine).lower()}\n"
        f"Tag: {tag(machine)}\n"
    )
    texts = {"METADATA": metadata(), "WHEEL": wheel, "entry_points.txt": entry_points()}
    return [Entry(f"{stem()}.dist-info/{name}", text.encode()) for name, text in texts.items()]


def contents(machine: str | None) -> Iterator[Entry]:
    """Returns the files that a wheel installs: the package, and for a machine also the libraries
    and the program `tpmsim`.
    """
    yield from package()
    if machine:
        folder = shipped(machine)
        for library in LIBRARY, KEPT_LIBRARY:
            yield Entry(f"{project()['name']}/{library}", (folder / library).read_bytes())
        program = (folder / PROGRAM).read_bytes()
        yield Entry(f"{stem()}.data/scripts/{PROGRAM}", program, 0o755)


def record(entries: list[Entry]) -> Entry:
    """The list of all files, with the digest and the size of each."""
    name, lines = f"{stem()}.dist-info/RECORD", []
    for entry in entries:
        digest = base64.urlsafe_b64encode(hashlib.sha256(entry.data).digest()).rstrip(b"=").decode()
        lines.append(f"{entry.name},sha256={digest},{len(entry.data)}\n")
    return Entry(name, "".join([*lines, f"{name},,\n"]).encode())


def packed_at() -> int:
    """The time of all files of a wheel: $SOURCE_DATE_EPOCH, by default the earliest possible one."""
    return max(FIRST_TIME, int(os.environ.get("SOURCE_DATE_EPOCH", FIRST_TIME)))


def write_zip(path: pathlib.Path, entries: list[Entry]) -> None:
    when = time.gmtime(packed_at())[:6]
    with zipfile.ZipFile(path, "w", zipfile.ZIP_DEFLATED) as file:
        for entry in [*entries, record(entries)]:
            about = zipfile.ZipInfo(entry.name, when)
            about.external_attr = (0o100000 | entry.mode) << 16
            about.compress_type = zipfile.ZIP_DEFLATED
            file.writestr(about, entry.data)


def write_wheel(folder: str, machine: str | None) -> pathlib.Path:
    """Writes the wheel for a machine or, if `machine` is None, the wheel for every machine, which
    has no library. Returns its path; raises OSError if it cannot be written, or if dist/ lacks a
    file.
    """
    path = pathlib.Path(folder, f"{stem()}-{tag(machine)}.whl")
    write_zip(path, [*contents(machine), *described(machine)])
    return path


def this_machine() -> str | None:
    """Returns this machine's name if dist/ has a libtpmsim for it and the installed C library is
    recent enough to load that libtpmsim; otherwise None.
    """
    system, version = platform.libc_ver()
    numbers = tuple(int(it) for it in version.split(".") if it.isdigit())
    machine = platform.machine()
    has_c = platform.system() == "Linux" and system == "glibc" and numbers >= GLIBC
    known = machine in ("x86_64", "aarch64") and (shipped(machine) / LIBRARY).is_file()
    return machine if has_c and known else None


def build_wheel(folder: str, settings: Settings = None, described_in: str | None = None) -> str:
    """Called by pip: writes the wheel for this machine, and returns its name."""
    return write_wheel(folder, this_machine()).name


def build_editable(folder: str, settings: Settings = None, described_in: str | None = None) -> str:
    """Called by pip with -e: writes a wheel that refers to the sources, which find dist/
    themselves.
    """
    path = pathlib.Path(folder, f"{stem()}-{tag(None)}.whl")
    write_zip(path, [Entry(f"{stem()}.pth", f"{SOURCES}\n".encode()), *described(None)])
    return path.name


def build_sdist(folder: str, settings: Settings = None) -> str:
    """Called by pip for a source distribution, which has no library."""
    path = pathlib.Path(folder, f"{stem()}.tar.gz")
    packing = sorted((SOURCES / "packing").glob("*.py"))
    files = [SOURCES / "README.md", SOURCES / "pyproject.toml", *packing]
    entries = [Entry(it.relative_to(SOURCES).as_posix(), it.read_bytes()) for it in files]
    with tarfile.open(path, "w:gz", format=tarfile.PAX_FORMAT) as file:
        for entry in [Entry("PKG-INFO", metadata().encode()), *entries, *package()]:
            about = tarfile.TarInfo(f"{stem()}/{entry.name}")
            about.size, about.mode, about.mtime = len(entry.data), entry.mode, packed_at()
            file.addfile(about, io.BytesIO(entry.data))
    return path.name
