"""Journals in the format of docs/SERVE.md. The device in Python writes them, so that the tests
need no library.
"""

from tpmsim.model.image import image
from tpmsim.model.machine import Model
from tpmsim.model.player import RANDOM_BYTES, Words
from tpmsim.model.state_text import state_text
from tpmsim.records.marks import OFFSET_BASIS, sum_from, sum_of
from tpmsim.standard import number


class Journal:
    """The journal of a device that plays lines. A power cycle restarts the journal. All random
    bytes that a command receives are recorded as drawn.
    """

    def __init__(self, model=None):
        self.model, self.words = model or Model(), Words()
        self.begin()

    def begin(self):
        self.model.power_cycle()
        self.image = image(self.model)
        self.head(1, self.image)

    def cycle(self):
        """Power-cycles the device, and restarts the journal with the whole state."""
        self.model.power_cycle()
        self.go_on()

    def go_on(self, layer=None):
        """Restarts the journal with the whole state. The journal no longer contains the commands
        that were executed before.
        """
        self.head(2, state_text(self.model, layer))

    def head(self, kind, text):
        mark = number(0, 8) + number(len(text), 4) + number(sum_of(text), 8)
        self.sum = sum_from(OFFSET_BASIS, mark)
        line = f"# tpmsim journal {kind} {mark.hex()} {self.sum:016x}"
        self.text = f"{line}\n# {text.hex()}\n".encode()
        self.head_bytes, self.ends, self.responses = len(self.text), [len(self.text)], []

    def play(self, *lines):
        for line in lines:
            buffer = self.words.take(line.encode())
            if buffer is not None:
                self.execute(buffer)
        return self

    def execute(self, buffer):
        words = self.words
        elapsed, words.elapsed = words.elapsed, 0
        drawn = words.random[:64]
        random = drawn.ljust(RANDOM_BYTES, b"\0")
        response = self.model.execute(buffer, words.locality, random, elapsed).response
        self.record(buffer, response, words.locality, elapsed, drawn)
        return response

    def record(self, buffer, response, locality, elapsed, drawn, completes=False):
        """Adds a command with its settings, and records whether the completing layer was used."""
        sizes = number(len(drawn), 2) + number(len(buffer), 2)
        sums = number(sum_of(drawn + buffer), 8) + number(sum_of(response), 8)
        told = number(locality, 1) + number(completes, 1)
        mark = number(elapsed, 4) + told + sizes + sums
        self.sum = sum_from(self.sum, mark)
        lines = (
            f"# {mark.hex()} {self.sum:016x}",
            *(f"wait {elapsed:010}", f"loc {locality}"),
            *(f"entropy {drawn.hex()}", f"cmd {buffer.hex()}"),
        )
        self.text += "".join(f"{it}\n" for it in lines).encode()
        self.ends.append(len(self.text))
        self.responses.append(response)
