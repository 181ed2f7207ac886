"""Plays the first part of a table of requirements, tests/program/required.txt, with a program:

    python3 required.py PROGRAM TABLE

The comment at the beginning of required.txt describes the table. Each case runs in an empty folder,
unless it continues the case before it. The program prints a line for each column of a case that
differs. The status is 1 if a case differs.
"""

import ast
import hashlib
import os
import pathlib
import re
import select
import shlex
import shutil
import socket
import subprocess
import sys
from collections.abc import Iterator
from dataclasses import dataclass

from tests.common.client import connected, responses
from tests.common.shims import Shim, Turns

# The columns of a section in which the program runs by itself, and of one in which it serves clients.
ALONE = ("words", "files", "status", "output", "error")
SERVED = ("words", "files", "connections", "status", "responses", "error")
SECTION, NAME, CRATES = "== ", " := ", "\n== The crates\n"
AT_MOST, FOREVER = 60, 1_000_000_000
Value = bytes | int


@dataclass(frozen=True)
class Case:
    """A case of the table: its line, the rule that it shows, and the text of each column."""

    line: int
    rule: str
    text: dict[str, str]

    @property
    def words(self) -> list[str]:
        """The arguments of the program."""
        return shlex.split(self.text["words"].removeprefix("then "))

    @property
    def continues(self) -> bool:
        """Whether the case uses the folder that the case before it has left."""
        return self.text["words"].startswith("then ")


class Table:
    """The cases of a table, and the number of its rules. `faults` are the lines that are wrong."""

    def __init__(self, text: str) -> None:
        self.cases: list[Case] = []
        self.faults: list[str] = []
        self.rules = 0
        self.names: dict[str, str] = {}
        self.columns: tuple[str, ...] = ()
        self.rule, self.is_open = "", False
        for number, line in enumerate(text.splitlines(), 1):
            self.read(number, line)

    def read(self, number: int, line: str) -> None:
        """Reads a line of the table."""
        if not line or line.startswith(("#", SECTION)):
            self.is_open = False
        elif line.startswith("|"):
            self.read_row(number, tuple(cell.strip() for cell in line.strip("|").split("|")))
            self.is_open = False
        elif NAME in line:
            name, _, value = line.partition(NAME)
            self.names[name] = text_of(value) if value.startswith("'") else self.named(value)
        else:
            self.rule = f"{self.rule} {line}" if self.is_open else line
            self.rules += not self.is_open
            self.is_open = True

    def read_row(self, number: int, cells: tuple[str, ...]) -> None:
        """Reads the heading of a section's columns, or a case."""
        if cells in (ALONE, SERVED):
            self.columns = cells
        elif len(cells) == len(self.columns):
            text = dict(zip(self.columns, map(self.named, cells)))
            self.cases.append(Case(number, self.rule, text))
        else:
            self.faults.append(f"line {number}: {len(cells)} columns, not {len(self.columns)}")

    def named(self, text: str) -> str:
        """Replaces each `$name` in a text by the value of the name."""
        return re.sub(r"\$(\w+)", lambda found: self.names[found[1]], text)


def text_of(expression: str) -> str:
    """Evaluates the text of a name, which depends on no file."""
    return bytes_of(ast.parse(expression, mode="eval").body, pathlib.Path()).decode("latin-1")


def value_of(node: ast.expr, folder: pathlib.Path) -> Value:
    """Evaluates the content of a file: texts, numbers, sums, products, the contents of files of the
    folder, their slices, and `digested`.
    """
    match node:
        case ast.Constant(value=str(text)):
            return text.encode("latin-1")
        case ast.Constant(value=int(number)):
            return number
        case ast.Name(id=name):
            return (folder / name).read_bytes()
        case ast.UnaryOp(op=ast.USub(), operand=operand):
            return -number_of(operand, folder)
        case ast.BinOp(left=left, op=ast.Mult(), right=right):
            return bytes_of(left, folder) * number_of(right, folder)
        case ast.BinOp(left=left, op=ast.Add(), right=right):
            return bytes_of(left, folder) + bytes_of(right, folder)
        case ast.Subscript(value=whole, slice=ast.Slice(lower=lower, upper=upper)):
            first = number_of(lower, folder) if lower else None
            return bytes_of(whole, folder)[first : number_of(upper, folder) if upper else None]
        case ast.Call(func=ast.Name(id="digested"), args=[text]):
            return with_digest(bytes_of(text, folder))
    raise ValueError(f"not the content of a file: {ast.unparse(node)}")


def bytes_of(node: ast.expr, folder: pathlib.Path) -> bytes:
    """Evaluates an expression whose value is the content of a file."""
    value = value_of(node, folder)
    assert isinstance(value, bytes), ast.unparse(node)
    return value


def number_of(node: ast.expr, folder: pathlib.Path) -> int:
    """Evaluates an expression whose value is a number."""
    value = value_of(node, folder)
    assert isinstance(value, int), ast.unparse(node)
    return value


def with_digest(text: bytes) -> bytes:
    """Returns a text followed by its SHA-256 digest."""
    return text + hashlib.sha256(text).digest()


@dataclass(frozen=True)
class Files:
    """What the column `files` of a case says, apart from the files of the folder."""

    stdin: bytes = b""
    stdout: str = ""
    has_memory: bool = True


def furnish(text: str, folder: pathlib.Path) -> Files:
    """Makes the files and folders that the column `files` names."""
    stdin, stdout, has_memory = b"", "", True
    for item in filter(None, text.split(" ; ")):
        name, _, expression = item.partition("=")
        if name == "no memory":
            has_memory = False
        elif name.endswith("/"):
            (folder / name).mkdir()
        elif name == ">":
            stdout = expression
        else:
            content = bytes_of(ast.parse(expression, mode="eval").body, folder)
            if name == "-":
                stdin = content
            else:
                (folder / name).write_bytes(content)
    return Files(stdin, stdout, has_memory)


class Player:
    """Plays cases with a program, each in a folder of its own, in the current folder."""

    def __init__(self, program: str) -> None:
        self.program = program
        self.folder = pathlib.Path("case")
        self.clock: Shim | None = None

    def play(self, case: Case) -> dict[str, str]:
        """Plays a case, and returns the text of each column that shows a result."""
        if not case.continues:
            shutil.rmtree(self.folder, ignore_errors=True)
            self.folder.mkdir()
        files = furnish(case.text["files"], self.folder)
        if "connections" in case.text:
            return self.serve(case, case.text["connections"])
        if not files.has_memory:
            return self.starve(case, files)
        with open(self.folder / files.stdout if files.stdout else os.devnull, "wb") as stdout:
            process = subprocess.Popen(
                [self.program, *case.words],
                cwd=self.folder,
                stdin=subprocess.PIPE,
                stdout=stdout if files.stdout else subprocess.PIPE,
                stderr=subprocess.PIPE,
            )
        return ended(process, files.stdin)

    def starve(self, case: Case, files: Files) -> dict[str, str]:
        """Plays a case in which each allocation of the program fails."""
        with Turns(Shim(self.program, "refuse"), case.words, self.folder) as turns:
            ending = turns.run(1, FOREVER, stdin=files.stdin)
        return results(ending.status, ending.output, ending.error)

    def serve(self, case: Case, connections: str) -> dict[str, str]:
        """Plays a case with clients. All of them connect before the first one sends, unless the
        program ends first.
        """
        environment = dict(os.environ)
        if "@" in connections:
            self.clock = self.clock or Shim(self.program, "clock")
            clock = (self.folder / "clock").resolve()
            clock.write_text("0 0", "ascii")
            environment |= {"LD_PRELOAD": str(self.clock.library), "CLOCK": str(clock)}
        process = subprocess.Popen(
            [self.program, *case.words],
            cwd=self.folder,
            env=environment,
            stdin=subprocess.DEVNULL,
            stdout=subprocess.PIPE,
            stderr=subprocess.PIPE,
        )
        said = [self.converse(client, text) for client, text in self.clients(process, connections)]
        return {**ended(process), "responses": " ; ".join(said)}

    def clients(
        self, process: subprocess.Popen[bytes], connections: str
    ) -> list[tuple[socket.socket, str]]:
        """Connects a client for each connection, until the program has ended."""
        clients = []
        for text in filter(None, connections.split(" ; ")):
            client = connected(self.folder / "s", process)
            if client:
                clients.append((client, text))
        return clients

    def converse(self, client: socket.socket, text: str) -> str:
        """Sends the commands of a connection, and returns the responses."""
        words = text.split()
        if words[0].startswith("@"):
            self.turn_clock(words.pop(0)[1:])
        kind = words.pop(0) if words[:1] in (["unread"], ["deaf"], ["nothing"]) else ""
        if kind == "deaf":
            client.shutdown(socket.SHUT_RD)
        for word in words:
            send(client, bytes.fromhex(word))
        if kind == "unread":
            select.select([client], [], [], AT_MOST)
        said = b""
        if kind in ("", "nothing"):
            said = received(client)
        client.close()
        return " ".join(response.hex() for response in responses(said)) or "none"

    def turn_clock(self, seconds: str) -> None:
        """Sets the host's clock, which the shim clock.c reads from a file."""
        new = self.folder / "clock.new"
        new.write_text(f"{seconds} 0", "ascii")
        new.rename(self.folder / "clock")


def send(client: socket.socket, piece: bytes) -> None:
    """Sends a piece, unless the program has ended the connection."""
    try:
        client.sendall(piece)
    except OSError:
        pass


def received(client: socket.socket) -> bytes:
    """Ends a client's stream, and reads what the program sends until the connection ends."""
    said = b""
    try:
        client.shutdown(socket.SHUT_WR)
        while piece := client.recv(65536):
            said += piece
    except OSError:
        pass  # The program has ended without reading all that the client sent.
    return said


def ended(process: subprocess.Popen[bytes], stdin: bytes | None = None) -> dict[str, str]:
    """Waits until a program ends, and returns its results. Kills it after a minute."""
    try:
        output, error = process.communicate(stdin, timeout=AT_MOST)
    except subprocess.TimeoutExpired:
        process.kill()
        output, error = process.communicate()
    return results(process.returncode, output or b"", error)


def results(status: int, output: bytes, error: bytes) -> dict[str, str]:
    """Returns the texts of the columns with a program's results."""
    return {"status": str(status), "output": lines_of(output), "error": lines_of(error)}


def lines_of(text: bytes) -> str:
    """Returns the lines of a text in one line. Says if the last line has no line feed."""
    lines = text.decode("latin-1").split("\n")
    last = lines.pop()
    return " / ".join(lines) + (f" / {last} without a line feed" if last else "")


def differences(case: Case, given: dict[str, str]) -> Iterator[str]:
    """Yields the columns of a case whose text is not the given one. A program that serves clients
    must print nothing on standard output.
    """
    for column, text in {"output": "", **case.text}.items():
        if column in given and given[column] != text:
            yield f"line {case.line}: {column}: {given[column] or 'empty'}, not {text or 'empty'}"


def main(program: str, path: str) -> int:
    """Plays all cases, prints the differences, and returns the status."""
    table = Table(pathlib.Path(path).read_text("utf-8").partition(CRATES)[0])
    player = Player(program)
    faults = list(table.faults)
    for case in table.cases:
        faults += differences(case, player.play(case))
    for fault in faults:
        print(fault)
    print(f"{len(table.cases)} cases of {table.rules} rules; {len(faults)} differ")
    return 1 if faults else 0


if __name__ == "__main__":
    sys.exit(main(*sys.argv[1:]))
