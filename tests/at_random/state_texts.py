"""Plays the same random events on three devices. The first is a device of the library that is
never restored. The second, also a device of the library, and the third, the Python device, are
often restored from the state text of the first:

    state_texts.py EVENTS [SEED]

TPMSIM_LIBRARY names the shared library. All responses, and the state texts after each event, must
be identical byte for byte. An event is a power cycle or a command, which may be refused. A new
device begins every thousand events, with the next seed. The program prints the number of compared
events, and how often a text was restored. At the first difference it ends with status 1.
"""

import sys

from tpmsim.device import LibraryDevice
from tpmsim.model import state_text
from tpmsim.model.machine import MANUFACTURED
from tpmsim.model.state_text import Layer
from tests.at_random.random_script import Writer
from tests.common.outputs import repeated

EVENTS_OF_ONE = 1000

# The probability that a state text is restored after an event. A low probability lets errors
# accumulate.
CHANCES = 1, 0.2, 0.01


class Differs(Exception):
    """Raised if the devices differ. The message describes the difference."""


class Devices:
    """The three devices, with the same random seed."""

    def __init__(self, seed):
        self.writer, self.chance = Writer(seed), CHANCES[seed % len(CHANCES)]
        self.whole, self.restored = (LibraryDevice(manufactured=MANUFACTURED) for _ in range(2))
        self.locality = self.elapsed = self.count = 0
        self.random = b""

    @property
    def both(self):
        return self.whole, self.restored

    def step(self):
        first, played = len(self.writer.events), len(self.writer.played)
        self.writer.step()
        answers = iter(self.writer.played[played:])
        for event in self.writer.events[first:]:
            self.tell(event, answers)
        self.compare()
        if self.writer.happens(self.chance):
            self.go_on()

    def tell(self, event, answers):
        """Plays an event of the writer on both devices of the library. The Python device has
        already executed it.
        """
        if isinstance(event, bytes):
            self.execute(event, next(answers).outcome.response)
        elif event == "power":
            next(answers)
            for device in self.both:
                device.cycle()
        else:
            word, value = event.split(" ")
            self.take(word, value)

    def take(self, word, value):
        if word == "entropy":
            self.random = repeated(bytes.fromhex(value))
        else:
            name = {"loc": "locality", "wait": "elapsed"}[word]
            setattr(self, name, int(value))

    def execute(self, buffer, response):
        told = buffer, self.locality, self.elapsed, self.random
        for device in self.both:
            answered = device.answer(*told).response
            if answered != response:
                raise Differs(f"{answered.hex()} is answered, and not {response.hex()}")
        self.elapsed = 0

    def compare(self):
        texts = [device.state() for device in self.both]
        if texts != [state_text.state_text(self.writer.device, Layer())] * 2:
            raise Differs("the state texts differ")

    def go_on(self):
        """Restores two of the three devices from the state text of the device that is never
        restored.
        """
        text = self.whole.state()
        self.restored.close()
        self.restored = LibraryDevice()
        self.restored.resume(text)
        self.writer.device, _ = state_text.open_state(text)
        self.count += 1

    def close(self):
        for device in self.both:
            device.close()


def play(events, seed):
    """Plays this many events with one seed. Returns how often a text was restored, and the first
    difference, if any.
    """
    devices = Devices(seed)
    try:
        for number in range(1, events + 1):
            devices.step()
    except Differs as fault:
        return devices.count, f"seed {seed}, event {number}: {fault}"
    finally:
        devices.close()
    return devices.count, None


def main(events, seed="1"):
    left, seed, restored = int(events), int(seed), 0
    while left > 0:
        more, difference = play(min(left, EVENTS_OF_ONE), seed)
        restored += more
        if difference:
            print(difference)
            return 1
        left, seed = left - EVENTS_OF_ONE, seed + 1
    print(f"{int(events):,} events, and {restored:,} texts that were restored: nothing differs")
    return 0


if __name__ == "__main__":
    sys.exit(main(*sys.argv[1:]))
