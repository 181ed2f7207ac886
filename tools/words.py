#!/usr/bin/env python3
"""Reports the words that docs/STYLE.md asks to avoid, in documents and in comments. Each word is
reported with its line and a suggested replacement.

    tools/words.py                all documents of the repository, and all code
    tools/words.py docs/STYLE.md  only these files

Skips code, links and the examples in docs/STYLE.md. The status is 1 if a word is found.
"""

from __future__ import annotations

import ast
import dataclasses
import io
import re
import subprocess
import sys
import tokenize
from collections.abc import Callable, Iterator
from pathlib import Path

TOP = Path(__file__).resolve().parent.parent
STYLE = TOP / "docs" / "STYLE.md"
LEXICON = re.compile(r"<!-- lexicon -->\n(.*)<!-- end of lexicon -->", re.DOTALL)
# Comments of definitions and proofs begin with dashes, and comments of shell scripts with a hash.
DASHES = re.compile(r"(?:^|\s)--\s(.*)$")
HASH = re.compile(r"^\s*#(?!!)(.*)$")
# the part of JSDoc that describes a type; the names in it are code
TYPE = re.compile(r"@\w+\s+\{.*\}+\s*\[?\w*|^[\s*]*\}+\s*\w+|import\(.*|\w+\?:|\{[^{}]*\}")
COMMENT = re.compile(r"/\*.*?\*/|//[^\n]*", re.DOTALL)
STRING = re.compile(r"\"(?:[^\"\\\n]|\\.)*\"|'(?:[^'\\\n]|\\.)'")
CRATES, END_OF_CRATES = "<!-- crates -->", "<!-- end of crates -->"
CODE = re.compile(r"`[^`]*`|\]\([^)]*\)|<!--.*?-->|[\w/.-]+\.(?:sh|py|out)\b|\w+/\w[\w/]*")
# the name and the arguments of a shell function, at the beginning of its comment
USAGE = re.compile(r"^\s*\w+(?: [][A-Z_.]+)*: ")


@dataclasses.dataclass(frozen=True)
class Entry:
    words: re.Pattern[str]
    plain: str
    # the phrases in which a word is allowed
    allowed: re.Pattern[str] | None

    def found_in(self, line: str) -> Iterator[str]:
        """Yields the forbidden words in a line, except those in names and in allowed phrases."""
        spans = [it.span() for it in self.allowed.finditer(line)] if self.allowed else []
        for match in self.words.finditer(line):
            is_name = match[0][1:] != match[0][1:].lower()
            if not is_name and not any(start <= match.start() < end for start, end in spans):
                yield match[0]


def phrases(words: str) -> re.Pattern[str]:
    return re.compile(rf"\b(?:{any_of(words)})\b", re.IGNORECASE)


def cells_of(row: str) -> list[str]:
    return [cell.strip() for cell in row.strip().strip("|").split("|")]


def any_of(words: str) -> str:
    """Returns a pattern that matches any of the words and phrases, which are separated by commas.
    """
    return "|".join(re.escape(it.strip()).replace(r"\ ", r"\s+") for it in words.split(","))


def lexicon() -> list[Entry]:
    table = LEXICON.search(STYLE.read_text(encoding="utf-8"))
    if table is None:
        raise ValueError(f"{STYLE} has no lexicon")
    entries = []
    for row in table[1].splitlines()[2:]:
        replaced, plain, allowed = cells_of(row)
        entries.append(Entry(phrases(replaced), plain, phrases(allowed) if allowed else None))
    return entries


def lines_of(text: str) -> Iterator[tuple[int, str]]:
    """Yields the lines of a document with their numbers. Skips code, and the list of crates, which
    consists of comments in code.
    """
    is_code = False
    for number, line in enumerate(text.splitlines(), 1):
        if line.lstrip().startswith("```") or line in (CRATES, END_OF_CRATES):
            is_code = not is_code
        elif not is_code:
            yield number, CODE.sub("``", line)


def comments_of(text: str) -> Iterator[tuple[int, str]]:
    """Yields the lines of comments in C, C++, Go, JavaScript or Rust, with their numbers. Contracts
    in ACSL, which begin with /*@, are code."""
    bare = STRING.sub(lambda it: " " * len(it[0]), text)
    number, seen = 1, 0
    for comment in COMMENT.finditer(bare):
        number += bare.count("\n", seen, comment.start())
        seen = comment.start()
        if comment[0].startswith("/*@"):
            continue
        for offset, line in enumerate(comment[0].splitlines()):
            yield number + offset, CODE.sub("``", TYPE.sub("``", line))


def matched(pattern: re.Pattern[str], text: str) -> Iterator[tuple[int, str]]:
    """Yields the part of each line that a pattern matches, with the line's number."""
    for number, line in enumerate(text.splitlines(), 1):
        if found := pattern.search(line):
            yield number, CODE.sub("``", found[1])


def of_definitions(text: str) -> Iterator[tuple[int, str]]:
    return matched(DASHES, text)


def of_shell(text: str) -> Iterator[tuple[int, str]]:
    for number, line in matched(HASH, text):
        yield number, USAGE.sub("", line)


def docstrings(text: str) -> Iterator[ast.Constant]:
    """Yields the docstrings of a Python module, and of its classes and functions."""
    for node in ast.walk(ast.parse(text)):
        body = node.body if isinstance(node, DOCUMENTED) else []
        if body and isinstance(body[0], ast.Expr) and isinstance(body[0].value, ast.Constant):
            if isinstance(body[0].value.value, str):
                yield body[0].value


def of_python(text: str) -> Iterator[tuple[int, str]]:
    """Yields the lines of docstrings and comments, except indented lines of a docstring, which are
    code.
    """
    lines = text.splitlines()
    for string in docstrings(text):
        for number in range(string.lineno, (string.end_lineno or string.lineno) + 1):
            line = lines[number - 1][string.col_offset :]
            if not line.startswith("    "):
                yield number, CODE.sub("``", line)
    for token in tokenize.generate_tokens(io.StringIO(text).readline):
        if token.type == tokenize.COMMENT:
            yield token.start[0], CODE.sub("``", token.string)


def reader_of(path: Path) -> Callable[[str], Iterator[tuple[int, str]]] | None:
    """Returns the function that yields the English lines of a file of this kind, if there is one.
    """
    if path.suffix in READERS:
        return READERS[path.suffix]
    with path.open("rb") as file:
        return of_shell if not path.suffix and file.read(9) == b"#!/bin/sh" else None


def found_in(path: Path, entries: list[Entry]) -> Iterator[str]:
    lines = reader_of(path) or lines_of
    for number, line in lines(path.read_text(encoding="utf-8")):
        for entry in entries:
            for word in entry.found_in(line):
                name = path.relative_to(TOP) if path.is_relative_to(TOP) else path
                yield f"{name}:{number}: {word}: write {entry.plain}"


DOCUMENTED = (ast.Module, ast.ClassDef, ast.FunctionDef, ast.AsyncFunctionDef)
READERS: dict[str, Callable[[str], Iterator[tuple[int, str]]]] = {
    **dict.fromkeys((".rt", ".c", ".h", ".hpp", ".go", ".js", ".mjs", ".rs"), comments_of),
    ".antt": of_definitions,
    ".sh": of_shell,
    ".py": of_python,
    ".md": lines_of,
}


def held() -> list[Path]:
    """Returns the files of the repository whose English must follow the rules of docs/STYLE.md."""
    ran = subprocess.run(
        ["git", "ls-files"], cwd=TOP, check=True, stdout=subprocess.PIPE, text=True
    )
    files = [TOP / name for name in ran.stdout.splitlines()]
    text = (it for it in files if it != STYLE and it.suffix in ("", *READERS) and it.is_file())
    return [it for it in text if reader_of(it)]


def main(names: list[str]) -> int:
    if "--help" in names:
        print((__doc__ or "").strip())
        return 0
    entries, count = lexicon(), 0
    for path in map(Path, names) if names else held():
        for line in found_in(path, entries):
            print(line)
            count += 1
    return 1 if count else 0


if __name__ == "__main__":
    sys.exit(main(sys.argv[1:]))
