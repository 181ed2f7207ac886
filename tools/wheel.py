#!/usr/bin/env python3
"""Makes the Python package, which contains the library and the program, and prints its path:
tpmsim-VERSION-py3-none-manylinux_2_34_MACHINE.whl. pip installs it without a network. The same
sources always result in the same bytes.

    tools/wheel.py [--machine aarch64] [FOLDER]   in FOLDER; by default in out/

The package is for this machine, or for the one that --machine names. Needs only python3 3.11.
"""

import argparse
import hashlib
import pathlib
import platform
import sys

# Python must write no bytecode into the repository.
sys.dont_write_bytecode = sys.pycache_prefix is None
TOP = pathlib.Path(__file__).resolve().parents[1]
sys.path.insert(0, str(TOP / "clients" / "python" / "packing"))

import tpmsim_wheel  # noqa: E402


def faults(machine: str) -> list[str]:
    """Returns the files of dist/ whose checksums differ from those in PROVED."""
    folder = tpmsim_wheel.shipped(machine)
    lines = (folder / "PROVED").read_text("ascii").splitlines()
    proved = dict(line.split(": ", 1) for line in lines)
    files = {
        "library shared object": folder / tpmsim_wheel.LIBRARY,
        "kept shared object": folder / tpmsim_wheel.KEPT_LIBRARY,
        "program": folder / tpmsim_wheel.PROGRAM,
    }
    sums = {name: hashlib.sha256(file.read_bytes()).hexdigest() for name, file in files.items()}
    return [
        f"{files[name].relative_to(TOP)} is not what PROVED names"
        for name, number in sums.items()
        if proved.get(name) != number
    ]


def main() -> int:
    reader = argparse.ArgumentParser(description="makes the Python package with the library in it")
    reader.add_argument("--machine", choices=["x86_64", "aarch64"], default=platform.machine())
    reader.add_argument("folder", nargs="?", type=pathlib.Path, default=TOP / "out")
    asked = reader.parse_args()
    try:
        found = faults(asked.machine)
        if not found:
            asked.folder.mkdir(parents=True, exist_ok=True)
            print(tpmsim_wheel.write_wheel(asked.folder, asked.machine))
    except OSError as fault:
        found = [str(fault)]
    for words in found:
        print(f"tools/wheel.py: {words}", file=sys.stderr)
    return 1 if found else 0


if __name__ == "__main__":
    sys.exit(main())
