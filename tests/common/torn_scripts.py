"""Makes the calls of `tpmsim run --image` that access files fail, one by one:

    python3 torn_scripts.py PROGRAM

The shim failing.c logs the calls of a run in order. Then each call is made to fail, in a run of its
own. If the call transfers bytes, it transfers only half of them in another run. The client sends
one line after another, and waits for each response. Whichever call fails, the image must have the
effects of all answered commands, according to the Python device. The run must end with the fault of
the failed call.
"""

import sys
from dataclasses import dataclass
from functools import partial

from tpmsim.model import machine, player
from tpmsim.model.image import image, open_image
from tests.common.streams import device_told, image_told
from tests.common.faults import Tears
from tests.common.shims import ENTROPY, FILE, WELL, Ending, Room, ended

ROOM = Room("torn")
RUN = "run --image image --entropy entropy -".split()
RANDOM = bytes(range(255, -1, -1))

LINES = [
    "do Startup 0",
    "do HierarchyChangeAuth OWNER pw:- 6f6e65",
    "do GetRandom 4",
    "do HierarchyChangeAuth OWNER pw:- 74776f",
    "do NV_DefineSpace OWNER pw:6f6e65 - 01000000000b0002000200000400",
    f"do NV_Write OWNER 01000000 pw:6f6e65 {'a5' * 1024} 0",
    "wait 1000",
    "power",
    "do Startup 0",
    "do NV_Read OWNER 01000000 pw:6f6e65 1024 0",
    "do HierarchyChangeAuth OWNER pw:6f6e65 74776f",
    "do ReadClock",
]


class Model:
    """The Python device: its response to each line, and the images that are allowed after each
    response. Before the first response the file contains the image that existed at the start or, if
    there was none, the new device's image.
    """

    def __init__(self, text):
        self.player = player.Player(machine.Model(RANDOM) if text is None else open_image(text))
        self.answers = []
        self.images = [[image_told(text), device_told(self.player.device)]]
        for line in LINES:
            self.answers += self.player.play(line.encode())[1:]
            while len(self.images) <= len(self.answers):
                self.images.append([])
            self.images[len(self.answers)].append(device_told(self.player.device))

    def allows(self, told, saved):
        """Returns whether an image has the effects of the commands that the first `told` responses
        answer. The image may also have the effect of the next line.
        """
        return saved in self.images[told] or saved in self.images[min(told + 1, len(self.answers))]


@dataclass(frozen=True)
class Result:
    ending: Ending
    answers: list
    image: bytes
    left: tuple


def answers_to(process):
    """Yields the responses to the lines, until the run ends."""
    try:
        for line in LINES:
            process.stdin.write(f"{line}\n".encode())
            if line.startswith("do"):
                # Sends all lines since the last command at once, so that each run makes the same
                # calls.
                process.stdin.flush()
                answer = process.stdout.readline()
                if not answer.endswith(b"\n"):
                    return
                yield answer.decode().strip()
    except BrokenPipeError:
        pass


def ran(program, text, fault):
    """Runs the program, with or without an image, and makes a call fail."""
    ROOM.furnish(text, RANDOM)
    process = program.begins(RUN, ROOM.path, fault)
    answers = list(answers_to(process))
    return Result(ended(process), answers, ROOM.image, ROOM.left)


def wrong(model, calls, torn):
    """Returns what is wrong with a run whose last of `calls` failed."""
    told = len(torn.answers)
    fault = ENTROPY if calls[-1].endswith("entropy") else FILE
    if torn.answers != model.answers[:told] or torn.ending != fault:
        return f"{torn}"
    if not model.allows(told, image_told(torn.image)):
        return f"{torn}"
    return f"{torn.left} is left" if set(torn.left) - {"image.new"} else ""


def check(program, label, text):
    """Repeats a run with or without an image, and makes a different call fail each time. Returns
    the image of the device after all lines.
    """
    model = Model(text)
    saved = image(model.player.device)
    whole = Result(WELL, model.answers, saved, ())
    program.tear(label, partial(ran, program, text), whole, partial(wrong, model))
    print(f"{label}: what was told is in the image, whichever of its calls fails")
    return saved


program = Tears(sys.argv[1])
made = check(program, "a device that is made", None)
check(program, "a device from an image", image(open_image(made)))
