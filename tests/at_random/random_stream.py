"""Random connections to a served device in consecutive runs, as lines for streams.py."""

from tpmsim.model import state
from tpmsim.model.image import Fault, image, open_image, VERSION_1
from tpmsim.standard import CC, frames
from tests.at_random.bent_script import bent_image
from tests.at_random.random_script import MOST_TRIES, Writer
from tests.common import streams

# Values for the times of dictionary attack protection, in seconds. These times are too long to
# elapse during the runs, or 0, so the results do not depend on how much time really passes.
RECOVERIES = 1000, 2**32 - 1, 0
LEAST_RECOVERY = 500

PIECES = 1, 2, 3, 7, 100, 4096, 65536
MOST_CONNECTIONS, MOST_COMMANDS = 6, 24


def parameters(writer):
    """Returns the handle and the parameters of TPM2_DictionaryAttackParameters."""
    numbers = (writer.choice(it) for it in (MOST_TRIES, RECOVERIES, RECOVERIES))
    return [frames.RH_LOCKOUT], frames.attack_parameters(*numbers)


def is_quick(text):
    """Returns whether the device in an image may forget a failed try or end a lockout during a run,
    only because time passes.
    """
    try:
        lockout = open_image(text).lockout
    except Fault:
        return False
    times = lockout.recovery_time, lockout.lockout_recovery
    return any(0 < it < LEAST_RECOVERY for it in times)


class StreamWriter(Writer):
    """Generates the bytes of connections to a device, and keeps track of the device's state."""

    COMMANDS = {**Writer.COMMANDS, CC.DictionaryAttackParameters: (2, parameters)}

    def __init__(self, seed):
        super().__init__(seed)
        self.served, self.events = streams.Served(), []

    def say(self, line):
        self.events.append(line)
        for buffer, outcome in self.served.play(len(self.events), line):
            self.note(buffer, outcome.response, outcome.refused)
        self.device = self.served.device

    def send(self, data):
        self.say(f"send {data.hex()}")

    def next_buffer(self):
        if not self.device.started and not self.happens(0.1):
            return self.startup()
        return self.buffer()

    def with_wrong_size(self, buffer):
        size = len(buffer)
        near = max(0, size - 1), size + 1, 2 * size, self.randrange(4097)
        wrong = self.choice((0, 6, 9, 4097, 2**32 - 1, *near))
        return buffer[:2] + frames.number(wrong, 4) + buffer[6:]

    def command(self):
        buffer = self.next_buffer()
        self.send(self.with_wrong_size(buffer) if self.happens(0.02) else buffer)

    def connection(self):
        self.say(f"connection {self.choice(PIECES)}")
        for _ in range(self.randrange(MOST_COMMANDS)):
            self.command()
        if self.happens(0.2):
            buffer = self.next_buffer()
            self.send(buffer[: self.randrange(len(buffer) or 1)])

    def give_image(self):
        """Adds a run that starts from an image of either version, usually an altered one. If the
        program refuses the image, the previous image is restored after the run.
        """
        self.served.end()
        before = given = self.served.image
        if self.happens(0.5):
            given = image(open_image(before), VERSION_1)
        if self.happens(0.8):
            given = bent_image(self, given)
        if is_quick(given):
            return
        self.say(f"image {given.hex()}")
        self.run()
        if self.served.run.error.startswith("tpmsim: image"):
            self.say(f"image {before.hex()}")

    def run(self):
        self.say(f"run {self.randrange(5)}")
        if self.served.run.is_over:
            return
        for _ in range(self.randrange(1, MOST_CONNECTIONS + 1)):
            if self.device.saved == state.Saved.NONE or self.happens(0.5):
                self.connection()
        if self.happens(0.1):
            self.say("dry")
            self.connection()


def random_stream(seed, runs):
    """Returns the lines of this many runs. In rare cases, a new device replaces the device between
    two runs.
    """
    writer = StreamWriter(seed)
    for at in range(runs):
        if at == 0 or writer.happens(0.1):
            writer.say(f"new {writer.randbytes(7).hex()}")
        writer.run()
        if writer.happens(0.4):
            writer.give_image()
    return writer.lines
