"""Prints the messages of the hosts in C, of the program in Rattle and of the Python package, each with
its file: the sentences that a fault or a wrong command line prints. In a text, {} stands for a value.
Also prints each message that no test causes and that uncaused.txt does not list, and each entry of
uncaused.txt that is not needed.

    python3 messages.py TOP
"""

import ast
import pathlib
import re
import sys
from typing import Iterator

TEXT = re.compile(r'"((?:[^"\\]|\\.)*)"')
# Parts of a source in C that are no messages: comments, includes, assertions, and the help texts.
LEFT_OUT = re.compile(
    r"/\*.*?\*/|//[^\n]*|^#include[^\n]*|_Static_assert\([^;]*;", re.DOTALL | re.M
)
PRINTED = re.compile(r'%"\s*PRI\w+(\s*")?')
JOINED = re.compile(r'"\s*"')
# A message has a blank between two words.
MESSAGE = re.compile(r"[A-Za-z%{][^ ]* +[A-Za-z%{]")
# The packages of other developers, whose messages their own tests read.
OTHERS = "sweep", "refuse", "refusals", "coverage", "caller"
# The crates with the sentences of the program's faults. In them, the texts of these forms are messages.
CRATES = "tpm_keeping", "tpmsim", "tpmsim_folder", "tpmsim_image"
SENTENCE = re.compile(
    r'(?:eprintln!\([^;"]*;\s*|write!\(\s*f,\s*|=>\s*(?:\{\s*)?)"([A-Za-z{](?:[^"\\]|\\.)*)"'
)
NAMED = re.compile(r"\{\w*\}")
# Where a test keeps what is expected, apart from the list of all messages.
EXPECTED = ".out", ".err", ".sh", ".py", ".c", ".h", ".txt"
SPLIT = re.compile(r'"\s*\n\s*f?"')
REASON = "# "
HELP = "  --"
FORMAT = re.compile(r"%[0-9.]*(?:hh|h|ll|l|z)?[dusxX]")


def of_c(text: str) -> Iterator[str]:
    """Yields the messages of a source in C."""
    joined = JOINED.sub("", PRINTED.sub(number, LEFT_OUT.sub(" ", text)))
    for found in TEXT.finditer(joined):
        words = found[1].replace('\\"', '"').removesuffix("\\n")
        if MESSAGE.search(words) and HELP not in words:
            yield FORMAT.sub("{}", words).rstrip()


def number(found: re.Match[str]) -> str:
    """Returns the format of a number; the text ends there if no other one follows."""
    return "%d" if found[1] else '%d"'


def text_of(node: ast.expr) -> str:
    """Returns the text of a constant or of a format; empty for another expression."""
    if isinstance(node, ast.Constant):
        return node.value if isinstance(node.value, str) else ""
    if isinstance(node, ast.JoinedStr):
        return "".join(text_of(it) if isinstance(it, ast.Constant) else "{}" for it in node.values)
    if isinstance(node, ast.BinOp):
        return text_of(node.left) + text_of(node.right)
    return ""


def is_on_standard_error(call: ast.Call) -> bool:
    return any(it.arg == "file" and "stderr" in ast.unparse(it.value) for it in call.keywords)


def of_python(text: str) -> Iterator[str]:
    """Yields the messages of a source in Python: those of raised exceptions, and those that are
    printed on standard error.
    """
    for node in ast.walk(ast.parse(text)):
        calls = list[ast.Call]()
        if isinstance(node, ast.Raise) and isinstance(node.exc, ast.Call):
            calls = [node.exc]
        elif isinstance(node, ast.Call) and is_on_standard_error(node):
            calls = [node]
        for it in calls:
            said = (text_of(argument) for argument in it.args)
            yield from (" ".join(words.split()) for words in said if MESSAGE.search(words))


def of_rattle(text: str) -> Iterator[str]:
    """Yields the messages of a source in Rattle."""
    for found in SENTENCE.finditer(text):
        yield NAMED.sub("{}", found[1])


def expected(top: pathlib.Path, left_out: list[pathlib.Path]) -> str:
    """Returns what the tests contain, with a blank for each white space."""
    texts = list[str]()
    for folder in (top / "tests", top / "clients" / "python" / "tests"):
        for path in sorted(folder.rglob("*")):
            if path.suffix in EXPECTED and path not in left_out:
                text = SPLIT.sub("", path.read_text("utf-8", "replace")).replace("\\", "")
                texts.append(" ".join(text.split()))
    return "\n".join(texts)


def print_uncaused(messages: list[str], tests: str, listed: list[str]) -> None:
    """Prints the messages whose longest part is in no test, unless they are listed; and what is listed
    although it is no message, or a test has it.
    """
    uncaused = [it for it in messages if not is_in(it.partition(": ")[2], tests)]
    for it in uncaused:
        if it not in listed:
            print(f"caused by no test: {it}")
    for it in listed:
        if it not in uncaused:
            print(f"needlessly in uncaused.txt: {it}")


def is_in(words: str, tests: str) -> bool:
    """Returns whether a test has the longest part of a message between its values. A single word is
    the end of a line of the program, as in `tpmsim: image Short`, or the front of other messages.
    """
    part = max((" ".join(it.split()) for it in words.split("{}")), key=len).strip(" :;,")
    if part.replace("tpmsim: ", "").isalpha() and "{}" in words or not part:
        return True
    if part.isalpha():
        return bool(re.search(rf"\btpmsim: ([a-z]+ )?{part}\b", tests))
    return part in tests


def main(top: pathlib.Path) -> None:
    sources = [(it, of_c) for it in sorted((top / "hosts").rglob("*.c"))]
    for crate in CRATES:
        sources += [
            (it, of_rattle) for it in sorted((top / "crates" / crate / "src").rglob("*.rt"))
        ]
    package = top / "clients" / "python" / "tpmsim"
    sources += [(it, of_python) for it in sorted(package.rglob("*.py"))]
    messages = list[str]()
    for path, found_in in sources:
        if path.parent.name not in OTHERS:
            found = dict.fromkeys(found_in(path.read_text("utf-8")))
            messages += [f"{path.relative_to(top)}: {it}" for it in found]
    print("\n".join(messages))
    here = top / "tests" / "python"
    known = here / "uncaused.txt"
    listed = [it for it in known.read_text("utf-8").splitlines() if not it.startswith(REASON)]
    left_out = [known, here / "messages.out", here / "messages.py"]
    print_uncaused(messages, expected(top, left_out), listed)


if __name__ == "__main__":
    main(pathlib.Path(sys.argv[1]))
