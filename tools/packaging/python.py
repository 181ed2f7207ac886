#!/usr/bin/env python3
"""Installs the Python package: its modules, its metadata, and the programs that
clients/python/pyproject.toml names.

    tools/packaging/python.py ROOT PACKAGES PROGRAMS

PACKAGES is the folder of Python packages below ROOT, and PROGRAMS is the folder of programs. A
program finds the package relative to its own path, wherever ROOT is.
"""

import os
import pathlib
import sys

SOURCES = pathlib.Path(__file__).resolve().parents[2] / "clients" / "python"
sys.path.insert(0, str(SOURCES / "packing"))
# Python must write no bytecode into the repository.
sys.dont_write_bytecode = sys.pycache_prefix is None

import tpmsim_wheel  # noqa: E402

PROGRAM = """#!/usr/bin/python3
import os
import sys

sys.path.insert(0, os.path.join(os.path.dirname(os.path.realpath(__file__)), "{packages}"))

from {module} import {function}

sys.exit({function}())
"""


def install(root: pathlib.Path, packages: pathlib.Path, programs: pathlib.Path) -> None:
    for entry in tpmsim_wheel.package():
        target = root / packages / entry.name
        target.parent.mkdir(parents=True, exist_ok=True)
        target.write_bytes(entry.data)

    described = root / packages / f"{tpmsim_wheel.stem()}.dist-info"
    described.mkdir(exist_ok=True)
    (described / "METADATA").write_text(tpmsim_wheel.metadata(), "utf-8")
    (described / "entry_points.txt").write_text(tpmsim_wheel.entry_points())

    (root / programs).mkdir(parents=True, exist_ok=True)
    for program, entry in tpmsim_wheel.project()["scripts"].items():
        module, _, function = entry.partition(":")
        path = root / programs / program
        path.write_text(
            PROGRAM.format(
                packages=os.path.relpath(packages, programs), module=module, function=function
            )
        )
        path.chmod(0o755)


if __name__ == "__main__":
    if len(sys.argv) != 4:
        sys.exit("usage: tools/packaging/python.py ROOT PACKAGES PROGRAMS")
    install(*map(pathlib.Path, sys.argv[1:]))
