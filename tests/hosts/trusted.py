"""Compares tools/framac/trusted with the functions that the proofs and the analysis trust, and with their headers.

python3 trusted.py TOP   prints each fault: a sentence that is not in the header, a function that is not in the list
"""

import pathlib
import re
import sys

# The files that declare or define functions that are trusted, and what their names begin with.
DECLARED = {
    "system.h": r"tpmsim_\w+",
    "eva/any.h": r"tpmsim_\w+",
    "eva/promised_kept.c": r"kept_\w+",
    "eva/promised_digests.c": r"\w+_digests",
    "eva/promised_clients.c": r"(?:client|device)_\w+",
}


def words_of(text: str) -> str:
    """The words of a header, without the marks of comments."""
    return " ".join(re.sub(r"/\*|\*/|^\s*\*(?= )", " ", text, flags=re.M).split())


def main(top: str) -> None:
    folder = pathlib.Path(top) / "tools/framac"
    listed, sentences = set(), 0
    for block in (folder / "trusted").read_text().split("\n\n"):
        lines = [line for line in block.strip().split("\n") if not line.startswith("#")]
        if not lines:
            continue
        header, *functions = re.sub(r"^\[\w+\] ", "", lines[0]).split()
        text = (pathlib.Path(top) / header).read_text()
        listed.update(functions)
        for function in functions:
            if not re.search(rf"\b{function}\(", text):
                print(f"{header} does not declare {function}")
        for line in lines[1:]:
            if line.startswith("> "):
                sentences += 1
                if words_of(line[2:]) not in words_of(text):
                    print(f"{header} does not say: {line[2:]}")
    trusted = set()
    for file, names in DECLARED.items():
        trusted.update(re.findall(rf"^[a-z].*?\b({names})\(", (folder / file).read_text(), re.M))
    for function in sorted(trusted ^ listed):
        print(f"{function} is {'not ' if function in trusted else ''}listed, and {'' if function in trusted else 'not '}trusted")
    print(f"{len(listed)} functions, {sentences} sentences")


if __name__ == "__main__":
    main(*sys.argv[1:])
