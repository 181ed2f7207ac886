"""A client of the completing layer. Its device is the Python device, next to the library's device
if a program names the library. Both devices must return the same responses, and have the same
state at the end.
"""

import os
import sys
from collections.abc import Callable, Iterable
from typing import Any

from tpmsim.caller import Caller, hmac_key
from tpmsim.device import LibraryDevice, ModelDevice
from tpmsim.device.base import Executed
from tpmsim.model.completion import Completion
from tpmsim.model.machine import MANUFACTURED
from tpmsim.model.state_text import open_state, state_text
from tpmsim.standard.objects import Public
from tests.common.layer_commands import flush, load, save
from tests.common.shims import fail

HMAC_KEY = hmac_key()


class Completed(LibraryDevice):
    """The library's device with the completing layer."""

    completes = True

    def executed(self, buffer: bytes, event: Any) -> None:
        calls = self.library
        call = calls.tpmsim_complete if self.completes else calls.tpmsim_execute
        call(self.handle, buffer, len(buffer), *event)


class Pair(ModelDevice):
    """The Python device with the completing layer, and the library's device, if there is a library.
    If `reopens` is true, each device is restored from its state text after each command.
    """

    has_library = False
    completes, reopens = True, False

    def __init__(self) -> None:
        super().__init__(seed=b"contexts")
        self.other = Completed(manufactured=MANUFACTURED) if self.has_library else None
        layer = open_state(self.other.state())[1] if self.other else None
        self.completion = Completion.of(layer) if layer else Completion()

    def answer(self, buffer: bytes, locality: int, elapsed: int, random: bytes) -> Executed:
        told, model = (buffer, locality, random, elapsed), self.model
        if self.completes:
            done = self.completion.execute(model, told, model.execute, model.place)
            response = done.outcome.response
        else:
            response = model.execute(*told).response
            self.completion.forget(model)
        if self.other:
            self.other.completes = self.completes
            given = self.other.answer(buffer, locality, elapsed, random).response
            if given != response:
                fail(f"{buffer.hex()}: {response.hex()} is wanted, {given.hex()} is given")
        if self.reopens:
            self.reopen()
        return Executed(buffer, response, locality, elapsed, random)

    def reopen(self) -> None:
        self.compare()
        text = self.text
        self.model, layer = open_state(text)
        assert layer
        self.completion = Completion.of(layer)
        if self.other:
            self.other.resume(text)

    def cycle(self) -> None:
        super().cycle()
        self.completion.forget(self.model)
        if self.other:
            self.other.cycle()

    @property
    def text(self) -> bytes:
        return state_text(self.model, self.completion.numbers)

    def compare(self) -> None:
        """Ends the program if the two devices have different states."""
        if self.other and self.other.state() != self.text:
            fail("the devices differ")

    def close(self) -> None:
        if self.other:
            self.other.close()


class Client:
    """A started device and its caller. The device is a Pair, or another device with the layer."""

    def __init__(self, device: Any = None) -> None:
        self.device = Pair() if device is None else device
        self.begin()

    def begin(self) -> None:
        self.tpm = Caller(self.device)
        self.tpm.start_up()

    def send(self, buffer: bytes) -> bytes:
        response: bytes = self.device.execute(buffer).response
        return response

    def code(self, buffer: bytes) -> str:
        """Returns the response code of a command, in hex."""
        return f"{int.from_bytes(self.send(buffer)[6:10], 'big'):03x}"

    def codes(self, *buffers: bytes) -> str:
        return " ".join(map(self.code, buffers))

    def done(self, buffer: bytes) -> bytes:
        """Sends a command that must succeed, and returns the response without its header."""
        response = self.send(buffer)
        assert not any(response[6:10]), f"{buffer.hex()} is refused: {response.hex()}"
        return response[10:]

    def started(self, buffer: bytes) -> int:
        """Sends a command that must succeed, and returns the handle in its response."""
        return int.from_bytes(self.done(buffer)[:4], "big")

    def saved(self, handle: int) -> bytes:
        """Returns a context of an object, of a session or of a sequence."""
        return self.done(save(handle))

    def loaded(self, context: bytes) -> int:
        return self.started(load(context))

    def load_code(self, context: bytes) -> str:
        return self.code(load(context))

    def flush(self, *handles: int) -> None:
        for handle in handles:
            self.done(flush(handle))

    def moved(self, handle: int) -> int:
        """Saves, flushes and loads an object or a sequence. Returns its new handle."""
        context = self.saved(handle)
        self.flush(handle)
        return self.loaded(context)

    def key(self, data: bytes = b"key", value: bytes = b"", template: Public = HMAC_KEY) -> int:
        return self.tpm.create_primary(template, data=data, user_auth=value)

    def restart(self, shutdown: int, startup: int, early: Callable[[], str] = str) -> str:
        """Power-cycles the device, between TPM2_Shutdown and TPM2_Startup. Returns what `early`
        returns before TPM2_Startup.
        """
        self.tpm.call("Shutdown", shutdownType=shutdown)
        self.device.power_cycle()
        found = early()
        self.tpm.start_up(startup)
        return found

    def handles(self, first: int = 0x8000_0000, count: int = 20) -> str:
        """Returns the handles that are listed, from the handle `first` on, in hex."""
        found = self.tpm.call(
            "GetCapability", capability="handles", property=first, propertyCount=count
        )
        return " ".join(f"{it:08x}" for it in found.capabilityData.handles)

    def property(self, number_of: int) -> int:
        """Returns a property that TPM2_GetCapability reports."""
        found = self.tpm.call(
            "GetCapability", capability="properties", property=number_of, propertyCount=1
        )
        return found.capabilityData.properties[number_of]

    def tries(self) -> int:
        """Returns the number of failed tries."""
        return self.property(0x20E)

    def pcr(self, bank: str, number_of: int) -> bytes:
        selection = f"{bank}:{number_of}"
        return bytes(self.tpm.call("PCR_Read", pcrSelectionIn=selection).pcrValues[0])

    def state(self) -> bytes:
        return state_text(self.device.model, self.device.completion.numbers)

    def end(self) -> None:
        self.device.compare()
        self.device.close()


Scenario = Callable[[Any], None]


def play(scenarios: Iterable[Scenario], client: type[Client] = Client, titled: bool = True) -> None:
    """Plays each scenario on a device of its own. With `titled`, prints its name first."""
    for scenario in scenarios:
        if titled:
            print(f"{scenario.__name__.replace('_', ' ')}:")
        own = client()
        scenario(own)
        own.end()


def run(main: Callable[[], None]) -> None:
    """Runs a program. Its only argument, if any, is the path of the library."""
    if len(sys.argv) > 1:
        os.environ["TPMSIM_LIBRARY"] = sys.argv[1]
        Pair.has_library = True
    main()
