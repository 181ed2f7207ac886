#!/usr/bin/env python3
"""Packs the Go module with its library, as a folder that GOPROXY can name, and prints the path of
the zip file in it. The same sources always result in the same bytes.

    tools/go_module.py [FOLDER]   in FOLDER; by default in out/go

In a clone, the header and the libraries of the module are in clients/c and dist/. The packed module
contains them as tpmsim.h, native/amd64/libtpmsim.a and native/arm64/libtpmsim.a, because `go get`
and `go mod vendor` copy only the module's own folder. Needs only python3 and git.
"""

import argparse
import json
import pathlib
import re
import subprocess
import sys
import zipfile

TOP = pathlib.Path(__file__).resolve().parents[1]
MODULE = TOP / "clients" / "go"

# The files that the packed module contains in addition.
ADDED = {
    "tpmsim.h": TOP / "clients" / "c" / "tpmsim.h",
    "native/amd64/libtpmsim.a": TOP / "dist" / "libtpmsim.a",
    "native/arm64/libtpmsim.a": TOP / "dist" / "aarch64" / "libtpmsim.a",
}

# The earliest time that a zip file can store, for zipfile and for Go.
FIRST_TIME = (1980, 1, 1, 0, 0, 0)
FIRST_TIME_TEXT = "1980-01-01T00:00:00Z"


def found(pattern: str, path: pathlib.Path) -> str:
    """Returns what a pattern's group matches in a file."""
    match = re.search(pattern, path.read_text("utf-8"), re.MULTILINE)
    if match is None:
        raise OSError(f"{path} has no line like {pattern}")
    return match[1]


def packed(path: pathlib.Path) -> bytes:
    """Returns the bytes of a packed file. A link of a page to a file outside the module becomes its
    words.
    """
    data = path.read_bytes()
    if path.suffix != ".md":
        return data
    return re.sub(rb"\[([^]]*)\]\(\.\./[^)]*\)", rb"\1", data)


def files() -> dict[str, pathlib.Path]:
    """Returns the path of each file by its name in the module: the files that git knows or does not
    ignore, and the added ones.
    """
    words = ["git", "ls-files", "-z", "--cached", "--others", "--exclude-standard", "."]
    listed = subprocess.run(words, cwd=MODULE, check=True, capture_output=True, text=True)
    return {it: MODULE / it for it in listed.stdout.split("\0") if it} | ADDED


def write_module(folder: pathlib.Path) -> pathlib.Path:
    """Writes the files of a module proxy for this version, and returns the path of the zip file."""
    name = found(r"^module (\S+)$", MODULE / "go.mod")
    version = "v" + found(r"^Version: (\S+)$", TOP / "clients" / "c" / "tpmsim.pc")
    place = folder / name / "@v"
    place.mkdir(parents=True, exist_ok=True)
    with zipfile.ZipFile(place / f"{version}.zip", "w", zipfile.ZIP_DEFLATED) as file:
        for inside, path in sorted(files().items()):
            about = zipfile.ZipInfo(f"{name}@{version}/{inside}", FIRST_TIME)
            about.external_attr = 0o100644 << 16
            about.compress_type = zipfile.ZIP_DEFLATED
            file.writestr(about, packed(path))
    information = json.dumps({"Version": version, "Time": FIRST_TIME_TEXT})
    (place / f"{version}.info").write_text(information + "\n", "ascii")
    (place / f"{version}.mod").write_bytes((MODULE / "go.mod").read_bytes())
    (place / "list").write_text(version + "\n", "ascii")
    return place / f"{version}.zip"


def main() -> int:
    reader = argparse.ArgumentParser(description="packs the Go module with the library in it")
    reader.add_argument("folder", nargs="?", type=pathlib.Path, default=TOP / "out" / "go")
    try:
        print(write_module(reader.parse_args().folder))
    except (OSError, subprocess.CalledProcessError) as fault:
        print(f"tools/go_module.py: {fault}", file=sys.stderr)
        return 1
    return 0


if __name__ == "__main__":
    sys.exit(main())
