#!/usr/bin/env python3
"""Makes the list of crates in docs/ARCHITECTURE.md, from the first clause of each crate's root
file. Crates of tests are not listed.

`tools/map.py` makes the list again, and its status is 1 if the one in the document differs;
`tools/map.py --write` writes the list into the document.
"""

import re
import sys
from pathlib import Path

TOP = Path(__file__).resolve().parent.parent
PAGE = TOP / "docs" / "ARCHITECTURE.md"
BEGIN, END = "<!-- crates -->\n", "<!-- end of crates -->\n"


def first_clause(crate: Path) -> str:
    """Returns the first sentence of the comment at the beginning of a crate's root file. If the
    sentence has a colon with at least three words before it, returns only those words.
    """
    root = crate / "src" / "lib.rt"
    text = (root if root.exists() else crate / "src" / "main.rt").read_text()
    lines = re.search(r"(?m)^(?://!.*\n)+", text)
    if lines is None:
        raise ValueError(f"{crate.name}: its root file has no comment at its head")
    paragraph = "\n".join(line[3:].strip() for line in lines[0].splitlines()).split("\n\n")[0]
    sentence = re.split(r"(?<=\.) +(?=[A-Z])", paragraph.replace("\n", " "))[0]
    plain = re.sub(r" \((?:TPM 2\.0|TCG|FIPS|SP)[^)]*\)", "", sentence)
    named = re.sub(r"\[`(?:\w+::)*(\w+)`\]", r"`\1`", plain).strip().removesuffix(".")
    clause = re.split(r":|;|,? for what ", named)[0]
    return clause if len(clause.split()) >= 3 else named


def in_order(names: list[str]) -> list[str]:
    """Returns the names of crates in the order of crates.txt, from the bottom up."""
    built = re.findall(r"(?m)^(\w+)", (TOP / "crates.txt").read_text())
    order = {name: at for at, name in enumerate(built)}
    return sorted(names, key=lambda name: (order.get(name, len(built)), name))


def listed() -> str:
    """Returns the list of all crates, except those that contain only tests."""
    folders = [path for path in (TOP / "crates").iterdir() if (path / "src").is_dir()]
    crates = {path.name: path for path in folders if not path.name.endswith("_tests")}
    return "".join(f"- {name}: {first_clause(crates[name])}\n" for name in in_order(list(crates)))


def main() -> int:
    """Compares the list with the document, or writes it."""
    if "--help" in sys.argv[1:]:
        print((__doc__ or "").strip())
        return 0
    page = PAGE.read_text()
    before, rest = page.split(BEGIN)
    after = rest.split(END)[1]
    made = before + BEGIN + listed() + END + after
    if sys.argv[1:] == ["--write"]:
        PAGE.write_text(made)
    elif page != made:
        print("docs/ARCHITECTURE.md: its list of crates is another than tools/map.py --write makes")
        return 1
    return 0


if __name__ == "__main__":
    sys.exit(main())
