"""Checks the clauses that docs/THEOREMS.md names:

    python3 tests/common/quoted_theorems.py DOCUMENT FOLDER

Each link of the document to a file in FOLDER/crates must be labelled with one name in backquotes:
a definition of specs/, or a function or a type of src/. `A::f` is the function f of the type or
the trait A. After a dot comes a field or a constructor of the definition, or a clause of the
function. The file must declare what is named. The code must promise it: a function must have an
`ensures`, and a definition must be used by an `ensures` in some src/, itself or through other
definitions. Each row of a table with a column "clause" must link at least one name there, and
each name in backquotes there must be a link.

Then the test changes the last letter of each name, and must find the change. The status is 1 if
something differs.
"""

import pathlib
import re
import sys
from collections.abc import Iterator

LINK = re.compile(r"\[([^]]*)\]\(([^()\s]+)\)")
NAME = re.compile(r"`([\w:]+)(?:\.(\w+))?`")
WORD = re.compile(r"[A-Za-z_]\w*")
DECLARED = re.compile(
    r"^ *(?:(?:pub|abbrev|unfoldable|record|data) )+(?!mutual\b)(\w+).*\n"
    r"(?:(?!--)[^\S\n]*\S.*\n)*",
    re.M,
)
MEMBER = r"^ +(?:pub )?{} :"
FUNCTION = re.compile(r'^\s*(?:pub(?:\(crate\))? )?(?:extern "C" )?fn (\w+)', re.M)
OWNER = re.compile(r"^(?:impl|pub trait)\b.*$", re.M)
TYPE = re.compile(r"^\s*(?:pub )?(?:struct|enum|trait|type) (\w+)", re.M)
CLAUSE = re.compile(r"^\s*ensures\*? (?:(\w+) )?\{", re.M)


def functions_of(text: str) -> Iterator[tuple[str, str, str]]:
    """Yields each function of a source file: its type or trait (the line that begins it), its
    name, and its text up to the next function.
    """
    starts = list(FUNCTION.finditer(text))
    owners = list(OWNER.finditer(text))
    for i, start in enumerate(starts):
        end = starts[i + 1].start() if i + 1 < len(starts) else len(text)
        owner = [it[0] for it in owners if it.start() < start.start()]
        yield (owner[-1] if owner else ""), start[1], text[start.end() : end]


def has_function(text: str, name: str, part: str | None) -> bool:
    """Returns whether a source file has this function, with an `ensures`. If `part` is not None,
    an `ensures` must have this name.
    """
    *owner, last = name.split("::")
    for line, function, body in functions_of(text):
        names = CLAUSE.findall(body)
        if function != last or (owner and owner[0] not in WORD.findall(line)):
            continue
        if part in names if part else names:
            return True
    return False


def has_definition(text: str, name: str, part: str | None) -> bool:
    """Returns whether a file of definitions declares this name; and, in it, this part."""
    for found in DECLARED.finditer(text):
        if found[1] == name and (not part or re.search(MEMBER.format(part), found[0], re.M)):
            return True
    return False


def is_declared(path: pathlib.Path, name: str, part: str | None) -> bool:
    """Returns whether a file declares what a link names."""
    text = path.read_text("utf-8") if path.is_file() else ""
    if path.suffix == ".rt":
        return has_function(text, name, part) or (not part and name in TYPE.findall(text))
    return has_definition(text, name, part)


def ensured(text: str) -> Iterator[str]:
    """Yields the words of all `ensures` of a source file."""
    for clause in CLAUSE.finditer(text):
        depth, end = 1, clause.end()
        while depth and end < len(text):
            depth += {"{": 1, "}": -1}.get(text[end], 0)
            end += 1
        yield from WORD.findall(text[clause.end() : end])


def promised_in(crates: pathlib.Path) -> set[str]:
    """Returns the words that the `ensures` of all sources use, themselves or through definitions.
    Definitions of the same name count as one.
    """
    uses: dict[str, set[str]] = {}
    for path in crates.glob("*/specs/**/*.antt"):
        for found in DECLARED.finditer(path.read_text("utf-8")):
            uses.setdefault(found[1], set()).update(WORD.findall(found[0]))
    words: set[str] = set()
    more = {it for path in crates.glob("*/src/**/*.rt") for it in ensured(path.read_text("utf-8"))}
    while more:
        words |= more
        more = {it for word in more for it in uses.get(word, ())} - words
    return words


def bare_rows(text: str) -> Iterator[str]:
    """Yields the rows of tables with a column "clause" that link no name there, or that have a name
    there without a link.
    """
    column = -1
    for line in text.splitlines():
        cells = [cell.strip() for cell in line.strip("|").split("|")] if line[:1] == "|" else []
        if not cells:
            column = -1
        elif "clause" in cells:
            column = cells.index("clause")
        elif column >= 0 and not set(line) <= set("|-: "):
            cell = cells[column] if column < len(cells) else ""
            if not LINK.search(cell) or "`" in LINK.sub("", cell):
                yield line


def faults_of(document: pathlib.Path, folder: pathlib.Path) -> tuple[list[str], int, int]:
    """Returns the differences, the number of names, and the number of changes that were missed."""
    text = document.read_text("utf-8")
    crates = (folder / "crates").resolve()
    promised = promised_in(crates)
    faults = [f"no linked name: {line[:60]}" for line in bare_rows(text)]
    names = missed = 0
    for label, target in LINK.findall(text):
        path = (document.parent / target).resolve()
        if not path.is_relative_to(crates):
            continue
        found = NAME.fullmatch(label)
        if not found:
            faults.append(f"not one name: {label}")
            continue
        names += 1
        name, part = found[1], found[2]
        if not is_declared(path, name, part):
            faults.append(f"not in {path.relative_to(crates)}: {label}")
        elif path.suffix == ".antt" and name not in promised:
            faults.append(f"not promised: {label}")
        whole = part or name
        other = whole[:-1] + ("x" if whole[-1] != "x" else "y")
        missed += is_declared(path, name if part else other, other if part else None)
    return faults, names, missed


def main(document: str, folder: str) -> int:
    """Prints the differences, and returns the status."""
    faults, names, missed = faults_of(pathlib.Path(document), pathlib.Path(folder))
    for fault in faults:
        print(f"DIFFERS: {fault}")
    print("at least 200 names" if names >= 200 else f"{names} names", f"{len(faults)} differ")
    print(f"a changed letter was missed in {missed}")
    return 1 if faults or missed else 0


if __name__ == "__main__":
    sys.exit(main(*sys.argv[1:]))
