"""Plays scripts with the library:

    tools/python.sh scripts.py STACK PLAYER..     compares
    tools/python.sh scripts.py --figures STACK    reports how much stack each call uses
    tools/python.sh scripts.py --lines SCRIPT     prints a script for play.c, without lines in words

Each PLAYER is built from play.c. It plays those scripts of tests/ and of the examples that succeed.
Its output must agree with the files next to the script. It must also agree with the Python device
in each response, row and number of drawn random bytes, and in the images at the end. STACK is built
from stack.c. It plays the scripts too, and no call may use more stack than tpmsim.h states.
"""

import pathlib
import sys
from collections.abc import Iterator
from itertools import islice, zip_longest

from tpmsim.model.image import image, open_image
from tpmsim.model.machine import Model, Outcome
from tpmsim.model.player import Player
from tests.common import places
from tests.common.shims import fail, ran

MEMORY, ACTIONS = 255, 20
MOST_STACK = 64 * 1024


def check_number(check: str) -> int:
    """Converts the name of a check to the number that a row contains."""
    if check == "ok":
        return 0
    if check == "M":
        return MEMORY
    return int(check[1:]) + (0 if check[0] == "G" else ACTIONS)


class Counted(Model):
    """The Python device, which also counts the random bytes that each command draws."""

    drawn = 0

    def execute(self, *words: object) -> Outcome:
        self.drawn = 0
        return super().execute(*words)

    def accepted(self, command: object, shown: object, plain: object, answer, random: bytes):
        self.drawn = answer.drawn
        return super().accepted(command, shown, plain, answer, random)

    def draw_nonces(self, command, random: bytes) -> None:
        super().draw_nonces(command, random)
        sessions = [self.sessions.get(entry.handle) for entry in command.entries]
        self.drawn += sum(len(it.nonce_tpm) for it in sessions if it)


class Lines(Player):
    """A script without lines in words, and the output that a player must print for each command."""

    def __init__(self) -> None:
        super().__init__(Counted())
        self.plain: list[str] = []
        self.wanted: list[str] = []
        self.play(b"entropy 00")

    def told(self, word: bytes, argument: bytes) -> list[str]:
        elapsed = self.elapsed
        nothing = super().told(word, argument)
        if word == b"loc":
            self.plain.append(f"loc {self.locality}")
        elif word == b"wait":
            self.plain.append(f"wait {self.elapsed - elapsed}")
        else:
            self.plain.append(f"entropy {self.random.hex()}")
        return nothing

    def executed(self, buffer: bytes) -> list[str]:
        self.plain.append(f"cmd {buffer.hex()}".rstrip())
        traced, response = super().executed(buffer)
        name, _, _, check, _ = traced.split(" ")
        code = 0 if name == "?" else int.from_bytes(buffer[6:10], "big")
        row = f"{code:08x} {check_number(check)}"
        self.wanted.append(f"{response} {row} {self.device.drawn}")
        return [traced, response]

    def play(self, line: bytes) -> list[str]:
        printed = super().play(line)
        if line == b"power":
            self.plain.append("power")
        return printed


class Script:
    """A script that the Python device has played."""

    def __init__(self, path: pathlib.Path) -> None:
        self.path = path
        lines, self.printed = Lines(), []
        for line in path.read_bytes().removesuffix(b"\n").split(b"\n"):
            self.printed += lines.play(line)
        saved = image(lines.device)
        opened = image(open_image(saved))
        self.plain = "".join(line + "\n" for line in ["begin", *lines.plain, "end"])
        self.wanted = [*lines.wanted, f"image {saved.hex()}", f"opened {opened.hex()}"]

    def fail(self, words: str) -> None:
        fail(f"{self.path.name}: {words}")

    def check(self, given: list[str]) -> None:
        """Compares a player's output for the script with the expected output."""
        pairs = zip_longest(self.wanted, given, fillvalue="no more")
        for number, (one, other) in enumerate(pairs, 1):
            if one != other:
                self.fail(f"line {number}: wanted {one[:200]}, given {other[:200]}")
        self.check_files(given[:-2])

    def check_files(self, given: list[str]) -> None:
        """Compares the responses and the trace with the files next to the script."""
        responses = "".join(line.split(" ")[0] + "\n" for line in given)
        if self.path.with_suffix(".out").read_text("ascii") != responses:
            self.fail("the responses are other than those of its file")
        trace = self.path.with_suffix(".trace")
        traced = "".join(line + "\n" for line in self.printed)
        if trace.exists() and trace.read_text("ascii") != traced:
            self.fail("the rows are other than those of its file")


def printed(program: str, played: list[Script]) -> Iterator[str]:
    """Yields the lines that a program prints for scripts."""
    given = ran(program, stdin="".join(script.plain for script in played).encode("ascii"))
    if given.status or given.error:
        done = given.output.count(b"\nopened ")
        fail(f"{program}: {given.status} {given.error!r} behind {done} scripts")
    return iter(given.output.decode("ascii").splitlines())


def check(player: str, played: list[Script]) -> None:
    lines = printed(player, played)
    for script in played:
        script.check(list(islice(lines, len(script.wanted))))
    for line in lines:
        fail(f"{player}: more than was wanted: {line}")
    print(f"{pathlib.Path(player).name}: each script is answered as it is to be")


class Stack:
    """The maximum amount of stack that each call uses. For the call that executes commands, also
    the command that uses most.
    """

    def __init__(self, program: str, played: list[Script]) -> None:
        self.most: dict[str, tuple[int, str]] = {}
        for line in printed(program, played):
            call, size, *code = line.split(" ")
            self.most[call] = int(size), " ".join(code)

    def figures(self) -> Iterator[str]:
        for call, (size, code) in self.most.items():
            yield f"{call}: {size:,} bytes" + (f", command {code}" if code else "")

    def check(self) -> None:
        for call, (size, _) in sorted(self.most.items()):
            if not 0 < size <= MOST_STACK:
                fail(f"{call} takes {size} bytes of stack")
            print(f"{call} takes no more stack than it may")


def ends_well(script: pathlib.Path) -> bool:
    status = script.with_suffix(".status")
    return not status.exists() or status.read_text("ascii").strip() == "0"


def scripts() -> list[Script]:
    return [Script(path) for path in places.scripts() if ends_well(path)]


def compare(stack: str, players: list[str]) -> None:
    played = scripts()
    if not played or not players:
        fail("nothing is played")
    for player in players:
        check(player, played)
    Stack(stack, played).check()


def main() -> None:
    match sys.argv[1:]:
        case ["--lines", path]:
            print(Script(pathlib.Path(path)).plain, end="")
        case ["--figures", stack]:
            print("\n".join(Stack(stack, scripts()).figures()))
        case [stack, *players]:
            compare(stack, players)


main()
