"""The device in Python, with the completing layer above it."""

from journals import Journal
from tpmsim.device import ModelDevice
from tpmsim.device.base import Executed
from tpmsim.model.completion import Completion


class CompletedModel(ModelDevice):
    """A device in this process, which needs no program. `did` describes what the layer did for the
    latest command, if anything. If `completes` is false, commands are executed without the layer.
    """

    def __init__(self, start=0, model=None):
        super().__init__(model, seed=b"completed")
        self.completion, self.completes, self.did = Completion(start), True, ""

    def answer(self, buffer, locality, elapsed, random):
        told, model = (buffer, locality, random, elapsed), self.model
        if self.completes:
            done = self.completion.execute(model, told, model.execute, model.place)
            self.did = done.did
            return Executed(buffer, done.outcome.response, locality, elapsed, random)
        event = super().answer(buffer, locality, elapsed, random)
        self.completion.forget(model)
        return event

    def cycle(self):
        super().cycle()
        self.completion.forget(self.model)


class RecordedModel(CompletedModel):
    """A device with the completing layer, and a journal of the commands that it executes. A power
    cycle restarts the journal.
    """

    def __init__(self):
        super().__init__()
        self.journal = Journal(self.model)
        self.completion = Completion(self.journal.sum)

    def answer(self, buffer, locality, elapsed, random):
        event = super().answer(buffer, locality, elapsed, random)
        self.journal.record(buffer, event.response, locality, elapsed, random, self.completes)
        return event

    def cycle(self):
        super().cycle()
        self.journal.go_on(self.completion.numbers)
