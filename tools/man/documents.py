#!/usr/bin/env python3
"""Installs the documents and the examples.

    tools/man/documents.py ROOT FOLDER [PATH=PLACE]..

Each file is installed below ROOT in FOLDER, with its path in the repository. PATH is a file of the
repository that is installed elsewhere: at the path PLACE below ROOT. Links between documents lead
to installed files; any other link is replaced with its text. The names of programs are replaced
with their installed names, which tools/packaging/pages.toml lists, except in README.md, which is about
the sources. Documents for developers are not installed. The scripts of examples/ are made, and
installed with their responses and traces. The name of the program that wrote a script is removed
from the script, because that program is not installed: a link to it leads to the script. Needs only
python3.
"""

import functools
import os
import pathlib
import re
import shutil
import sys

# Python must write no bytecode into the repository.
sys.dont_write_bytecode = sys.pycache_prefix is None

from sources import TOP, installed  # noqa: E402

sys.path.insert(0, str(TOP))

from tests.common.places import scripts  # noqa: E402

DOCUMENTS = (
    *("*.md", "docs/*.md", "docs/table/*.md", "examples/README.md", "web/README.md"),
    *("clients/c/README.md", "clients/python/README.md"),
)
FOR_DEVELOPERS = set("CONTRIBUTING GATE REQUIREMENTS".split())
COPIED = (
    *("docs/*.png", "docs/*.svg", "web/*.png", "examples/words/*.tpms"),
    *("examples/c/*.[ch]", "examples/python/*.py", "examples/pytest/*.py"),
    "examples/clients/*.sh",
)
PIECE = re.compile(
    r"^```.*?^```$|(?P<ticks>`+)(?!`).+?(?<!`)(?P=ticks)(?!`)"
    r"|\[(?P<text>(?:[^][]|\[[^]]*\])*)\]\((?P<file>[^()\s#]*)(?P<anchor>#[^()\s]*)?\)",
    re.M | re.S,
)
SITE = re.compile(r"[a-z]+:")
WRITTEN_BY = re.compile(
    r"\s+(# )?\w+\.py,\s+(# )?next\s+(# )?to\s+(# )?it,\s+(# )?wrote\s+(# )?this\.$", re.M
)
README = "README.md"
NOTE = """
This is the README of the sources. Installed, `./tpmsim` is `tpmsim`, and `tools/explain.py` and
`tools/audit.py` are `tpmsim-explain` and `tpmsim-audit`. Folders such as crates/, dist/, tests/ and
tools/ are in the sources and are not installed.
"""


def paths(*patterns: str) -> list[str]:
    """Returns the files of the repository that match these patterns."""
    found = sorted(it for pattern in patterns for it in TOP.glob(pattern))
    return [str(it.relative_to(TOP)) for it in found if it.stem not in FOR_DEVELOPERS]


def made_examples() -> dict[str, str]:
    """Makes the scripts of examples/. Returns the texts of the made files, by their paths."""
    made = [it.with_suffix(end) for it in scripts("examples") for end in (".tpm", ".out", ".trace")]
    texts = {f"examples/{it.name}": it.read_text("ascii") for it in made}
    return {name: WRITTEN_BY.sub("", text) for name, text in texts.items()}


class Documents:
    """The files of the repository that are installed, with their paths below the root. A link to
    the program of an example leads to its script.
    """

    def __init__(self, folder: str, others: dict[str, str]) -> None:
        self.examples = made_examples()
        ours = set(paths(*DOCUMENTS, *COPIED)) | set(self.examples)
        ours |= {os.path.dirname(it) for it in ours} - {""}
        self.places = {it: os.path.join(folder, it) for it in ours} | others
        for name in filter(lambda it: it.endswith(".tpm"), self.examples):
            self.places[name.replace(".tpm", ".py")] = self.places[name]

    def piece(self, document: str, found: re.Match[str]) -> str:
        """Returns the replacement of a link; returns code unchanged."""
        text, file = found["text"], found["file"]
        if text is None or not file or SITE.match(file):
            return found[0]
        path = os.path.normpath(os.path.join(os.path.dirname(document), file))
        if path not in self.places:
            return text
        way = os.path.relpath(self.places[path], os.path.dirname(self.places[document]))
        return f"[{text}]({way}{found['anchor'] or ''})"

    def document(self, name: str) -> str:
        text = PIECE.sub(functools.partial(self.piece, name), (TOP / name).read_text("utf-8"))
        if name != README:
            return installed(text)
        heading, _, rest = text.partition("\n")
        return f"{heading}\n{NOTE}{rest}"

    def install(self, root: str) -> None:
        made = {it: self.document(it) for it in paths(*DOCUMENTS)}
        made |= self.examples
        for name in [*made, *paths(*COPIED)]:
            target = pathlib.Path(f"{root}{self.places[name]}")
            target.parent.mkdir(parents=True, exist_ok=True)
            if name in made:
                target.write_text(made[name], "utf-8")
            else:
                shutil.copyfile(TOP / name, target)


def main(words: list[str]) -> int:
    """Installs the files that the arguments name, and returns the exit status."""
    if len(words) < 2 or not all("=" in it for it in words[2:]):
        print("usage: tools/man/documents.py ROOT FOLDER [PATH=PLACE]..", file=sys.stderr)
        return 2
    Documents(words[1], dict(it.split("=", 1) for it in words[2:])).install(words[0])
    return 0


if __name__ == "__main__":
    sys.exit(main(sys.argv[1:]))
