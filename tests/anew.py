"""Makes scripts, and compares the results with what is stored. tools/anew.sh runs this program:

    tools/python.sh tests/anew.py [--write] [NAME..]

A script that is written by hand has the responses of the Python device in its file NAME.out. Each
made file has its SHA-256 in tests/made.sums. tests/lines/assemble.out is what tests/lines/assemble.py
computes; it is left out if scripts are named.
"""

import pathlib
import sys
import tempfile
from collections.abc import Sequence

from tests.common.made import make_all, sources, stored_sums, SUMS, TOP
from tests.lines import assemble


def computed(folder: pathlib.Path, names: Sequence[str]) -> dict[pathlib.Path, bytes]:
    """Returns the right content of stored files, by their paths. FOLDER contains the made files."""
    by_hand = [it.with_suffix(".out") for it in sources(*names) if it.suffix == ".tpm"]
    found = {it: (folder / it.relative_to(TOP)).read_bytes() for it in by_hand}
    return found if names else found | {assemble.OUTPUT: assemble.output().encode("ascii")}


def differing(found: dict[pathlib.Path, bytes]) -> list[str]:
    """Returns the paths of the stored files with another content."""
    others = [it for it, text in found.items() if not it.exists() or it.read_bytes() != text]
    return [str(it.relative_to(TOP)) for it in others]


def write(found: dict[pathlib.Path, bytes], sums: dict[str, str]) -> None:
    for path, text in found.items():
        path.write_bytes(text)
    lines = (f"{digest}  {path}\n" for path, digest in sorted(sums.items()))
    SUMS.write_text("".join(lines), "ascii")


def main(words: list[str]) -> int:
    is_written = words[:1] == ["--write"]
    names = words[1:] if is_written else words
    with tempfile.TemporaryDirectory() as name:
        folder = pathlib.Path(name)
        made = make_all(folder, *names)
        if made.faults:
            print(*made.faults, sep="\n")
            return 1
        found, stored = computed(folder, names), stored_sums()
    # If only some scripts are made, the lines of the others stay.
    compared = made.sums.keys() if names else made.sums.keys() | stored.keys()
    changed = [it for it in compared if made.sums.get(it) != stored.get(it)]
    others = sorted([*differing(found), *changed])
    print(*others, sep="\n", end="\n" if others else "")
    same = len(found) + len(compared) - len(others)
    print(f"{same} files as they are, {len(others)} others")
    if is_written:
        write(found, stored | made.sums if names else made.sums)
    return 0 if is_written or not others else 1


if __name__ == "__main__":
    sys.exit(main(sys.argv[1:]))
