"""Compares the public functions that have no `ensures` clause with a list of such functions:

    python3 tests/common/unpromised_calls.py LIST FOLDER

FOLDER contains the crates. LIST is tests/program/unpromised_calls.txt: each block has a reason, and
then indented lines that name a crate and the files of its src/ that contain public functions
without `ensures` clauses. Each file is listed once, with a reason. The test prints a line for each
difference, and then the number of functions. Then it removes one file of each crate from the list,
and adds a wrong one; it must find both mistakes. The status is 1 if there is a difference, or if a
mistake is not found.
"""

import collections
import pathlib
import re
import sys

PUBLIC = re.compile(r"^\s*pub (?:extern \"C\" )?fn (\w+)", re.M)
# A signature with clauses ends with a line that contains only a brace. A signature without clauses
# ends with a brace at the end of its last line.
BODY = re.compile(r"^\s*\{\}?$", re.M)
LAST_BRACE = re.compile(r" \{\}?$", re.M)
CLAUSE = re.compile(r"^\s*ensures\b", re.M)
Found = dict[str, dict[str, list[str]]]


def signatures(text: str) -> list[tuple[str, str]]:
    """Returns the name of each public function, with the text of its signature and clauses."""
    found = []
    for start in PUBLIC.finditer(text):
        rest = text[start.end() :]
        following = PUBLIC.search(rest)
        body = BODY.search(rest)
        clause = CLAUSE.search(rest, 0, following.start() if following else len(rest))
        plain = LAST_BRACE.search(rest)
        ends_plainly = plain is not None and (clause is None or plain.start() < clause.start())
        end = plain.start() if ends_plainly and plain else (body.start() if body else len(rest))
        found.append((start[1], rest[:end]))
    return found


def without_promise(crates: pathlib.Path) -> Found:
    """Returns the names of the public functions without `ensures` clauses, by crate and by file in
    src/.
    """
    found: Found = collections.defaultdict(dict)
    for path in sorted(crates.glob("*/src/**/*.rt")):
        crate, _, *parts = path.relative_to(crates).parts
        names = [it for it, text in signatures(path.read_text("utf-8")) if not CLAUSE.search(text)]
        if names:
            found[crate]["/".join(parts)] = names
    return found


def listed(text: str) -> tuple[dict[str, set[str]], list[str]]:
    """Returns the listed files, by crate; and the faults of the list's own form."""
    rows: dict[str, set[str]] = collections.defaultdict(set)
    faults, reason = [], ""
    for line in text.splitlines():
        if not line.startswith(" "):
            reason = "" if line.startswith("#") else line.strip()
            continue
        crate, _, names = line.strip().partition(": ")
        for name in names.split():
            if not reason:
                faults.append(f"{crate}/src/{name} has no reason")
            elif name in rows[crate]:
                faults.append(f"{crate}/src/{name} is listed twice")
            rows[crate].add(name)
    return dict(rows), faults


def differences(found: Found, rows: dict[str, set[str]]) -> list[str]:
    """Describes the files that are missing from the list, and those that should not be in it."""
    faults = []
    for crate in sorted({*found, *rows}):
        files, named = found.get(crate, {}), rows.get(crate, set())
        for name in sorted({*files} - named):
            faults.append(f"{crate}/src/{name} is not listed: {', '.join(files[name])}")
        faults += [
            f"{crate}/src/{name} is listed, and has none" for name in sorted(named - {*files})
        ]
    return faults


def are_found(found: Found, rows: dict[str, set[str]]) -> bool:
    """Returns whether `differences` finds both a file that is missing from the list and one that
    should not be in it.
    """
    lacking = {crate: set(sorted(files)[1:]) for crate, files in rows.items()}
    longer = {crate: files | {"another.rt"} for crate, files in rows.items()}
    known = len(differences(found, rows))
    return all(len(differences(found, it)) == known + len(rows) for it in (lacking, longer))


def main(words: list[str]) -> int:
    list_path, folder = map(pathlib.Path, words)
    found = without_promise(folder)
    rows, faults = listed(list_path.read_text("utf-8"))
    faults += differences(found, rows)
    if not rows or not are_found(found, rows):
        faults.append("a file that the list lacks, or has too many, is not found")
    print(*faults, sep="\n", end="\n" if faults else "")
    print(sum(len(names) for files in found.values() for names in files.values()), "functions")
    return 1 if faults else 0


if __name__ == "__main__":
    sys.exit(main(sys.argv[1:]))
