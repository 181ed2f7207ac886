"""A client that loads the context of an object after power cycles of its device."""

from typing import Any

from tests.common.layer import Client
from tests.common.layer_commands import load
from tpmsim.caller import storage_key
from tpmsim.caller.knowledge import CLEAR, STATE


class Sleeper(Client):
    """A client with the context and the Name of an object. Its device has `power_cycle`."""

    def __init__(self, device: Any) -> None:
        super().__init__(device)
        self.context, self.name = self.saved_object()

    def saved_object(self) -> tuple[bytes, bytes]:
        """Makes, saves and flushes the object. Returns its context and its Name."""
        handle = self.tpm.create_primary(storage_key())
        name = bytes(self.tpm.call("ReadPublic", handle).name)
        context = self.saved(handle)
        self.flush(handle)
        return context, name

    def found(self) -> str:
        """Loads the context. Returns which object is loaded, or the code of the refusal."""
        response = self.send(load(self.context))
        if any(response[6:10]):
            return response[6:10].hex()
        handle = int.from_bytes(response[10:14], "big")
        is_same = bytes(self.tpm.call("ReadPublic", handle).name) == self.name
        self.flush(handle)
        return "the object" if is_same else "another object"

    def wakes(self, words: str, startup: int) -> None:
        """Power-cycles the device after TPM2_Shutdown(STATE), and reports whether the context can
        be loaded. Then saves the object again, in a context that must differ from the previous one.
        """
        self.restart(STATE, startup)
        found, before = self.found(), self.context
        self.context, _ = self.saved_object()
        print(f"{words}: {found}; a new context is another one: {self.context != before}")

    def sleeps(self) -> None:
        """Tests the three kinds of power cycles."""
        self.wakes("Resume", STATE)
        self.wakes("Resume again", STATE)
        self.wakes("Restart", CLEAR)
        self.device.power_cycle()
        self.tpm.start_up()
        print("Reset:", self.found())
