"""Makes allocations fail in a device that keeps its state in lists:

    python3 lists_starved.py TPMSIM_LISTS

Each allocation fails in turn: in one run only that allocation, in another also all later ones. If
opening the image or executing the line needs an allocation that failed, the run must end with
status 3 and `tpmsim_lists: memory`. A script continues instead: a command that needs the memory
gets the response MEMORY. All responses must be those of a Python device in which the same commands
get no memory.
"""

import collections
import functools
import pathlib
import sys

from tpmsim.model import image, machine
from tpmsim.model.player import Player
from tpmsim.standard import CC, lines, NUMBERED
from tests.common.faults import Refusals
from tests.common.shims import HERE, Ending, Turns, fail

MEMORY = Ending(3, error=b"tpmsim_lists: memory\n")
STARVED, SUCCESS = machine.STARVED.hex(), bytes(4).hex()
CODE = slice(12, 20)

# The commands that may get the response MEMORY, because they add to a list; and the script, which
# has all commands. It sends each command of GROWING whenever that command's list must allocate.
GROWING = {CC.StartAuthSession, CC.CreatePrimary, CC.Load, CC.NV_DefineSpace, CC.EvictControl}
SCRIPT = (HERE / "growing.tpm").read_bytes()
LINES = SCRIPT.splitlines()


def printed(starved=()):
    """Returns the responses of a Python device in which the commands with the numbers `starved` get
    no memory.
    """
    player = Player(starved=starved)
    told = [player.play(line) for line in LINES]
    return [it[-1] for it in told if it and it[-1] != "power"]


class Script:
    """The script and its commands. Counts how often each command got MEMORY because an allocation
    failed.
    """

    def __init__(self, program):
        self.program = program
        self.commands = [line for line in LINES if line.startswith(b"do ")]
        buffers = [lines.assemble(line[3:]) for line in self.commands]
        self.codes = [int.from_bytes(buffer[6:10], "big") for buffer in buffers]
        self.whole = printed()
        self.refused = collections.Counter()

    def check(self):
        with Turns(self.program, []) as turns:
            run = functools.partial(turns.run, stdin=SCRIPT)
            given = run()
            if given.status != 0 or self.answers(given) != self.whole:
                fail(f"the script, nothing refused: {given}")
            self.check_all_succeed()
            for turn, alone, rest in self.program.each(turns, run):
                self.check_alone(turn, alone)
                self.check_run(turn, rest)
        self.tell()

    @staticmethod
    def answers(ending):
        return ending.output.decode("ascii").splitlines()

    def check_all_succeed(self):
        """Checks that the script has each command of the symmetric profile, and that each succeeds at
        least once.
        """
        answered = zip(self.codes, self.whole)
        succeeded = {code for code, answer in answered if answer[CODE] == SUCCESS}
        if succeeded != set(NUMBERED.values()):
            fail("the script does not have every command")

    def check_run(self, turn, ending):
        """Compares all responses with those of the Python device. Returns the numbers of the
        commands that got the response MEMORY. Only commands in GROWING may get it.
        """
        if ending == MEMORY:
            return []
        answers = self.answers(ending)
        starved = [number for number, answer in enumerate(answers, 1) if answer == STARVED]
        others = {self.codes[number - 1] for number in starved} - GROWING
        if others:
            fail(f"allocation {turn} refused, MEMORY is answered by {sorted(others)}")
        if ending.status != 0 or ending.error or answers != printed(starved):
            fail(f"allocation {turn} refused, the commands {starved} starved: {ending}")
        return starved

    def check_alone(self, turn, ending):
        """Checks that one failed allocation makes at most one command fail, and that the same
        command later succeeds.
        """
        starved = self.check_run(turn, ending)
        if len(starved) > 1:
            fail(f"allocation {turn} refused, the commands {starved} starved")
        for number in starved:
            again = self.commands.index(self.commands[number - 1], number)
            if self.answers(ending)[again][CODE] != SUCCESS:
                fail(f"allocation {turn} refused, command {again + 1} does not succeed")
            self.refused[self.codes[number - 1]] += 1

    def tell(self):
        for code in sorted(GROWING):
            if not self.refused[code]:
                fail(f"{code.name} was never refused memory")
            print(
                f"{code.name}: growths refused: {self.refused[code]}, each answered MEMORY,"
                " and the same command then succeeded"
            )
        print(f"{len(NUMBERED) - len(GROWING)} other commands: never answered MEMORY")


def full_image():
    """Returns the image of the device after the script has filled it."""
    player = Player()
    for line in LINES:
        if line.startswith(b"do Clear "):
            break
        player.play(line)
    return image.image(player.device)


def check_image(program, label, text):
    """Opens an image and two bad ones. The first has a wrong digest, which is found before the
    device allocates. The second has an extra byte at its end, which is found after the device has
    allocated. Once a run has read the file, it reports the bad image even if later allocations
    fail.
    """
    path, words = pathlib.Path("image"), ["open", "image"]
    path.write_bytes(text)
    program.check(label, words, Ending(0, text))
    no_image = Ending(1, error=b"tpmsim_lists: image\n")
    body = text[image.BODY_AT : -image.DIGEST_AT_END]
    longer = image.framed(body + b"\0")
    path.write_bytes(longer[:-1] + bytes([longer[-1] ^ 1]))
    needed = program.check(f"{label}, with a wrong digest", words, no_image)
    path.write_bytes(longer)
    program.check(f"{label}, with a byte too many", words, no_image, needed=needed)


def check_line(program, line):
    trace, _ = Player().play(b"do " + line.encode("ascii"))
    program.check(f"a line, {line}", ["line", line], Ending(0, f"{trace}\n".encode()))


program = Refusals(sys.argv[1], MEMORY)
check_image(program, "the image of a new device", image.image(Player().device))
check_image(program, "the image of a full device", full_image())
check_line(program, "Startup 0")
check_line(program, "GetRandom 4")
program.check("a bad line", ["line", "x"], Ending(1, error=b"tpmsim_lists: line\n"))
program.check("no file", ["open", "none"], Ending(1, error=b"tpmsim_lists: file\n"))
program.check("other words", ["run"], Ending(1, error=b"tpmsim_lists: usage\n"))
Script(program).check()
