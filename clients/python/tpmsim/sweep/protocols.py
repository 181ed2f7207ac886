"""What clients send to a TPM on a connection: plain commands, the requests of swtpm's control
channel, or those of Microsoft's simulator at its two ports.
"""

from __future__ import annotations

from abc import ABC, abstractmethod
from typing import Callable

from tpmsim.standard import frames, HEADER_BYTES, number

Execute = Callable[[bytes, int], bytes]

# Requests of swtpm's control channel (its tpm_ioctl.h), and the sizes of their arguments.
INIT, SHUTDOWN, GET_ESTABLISHED, SET_LOCALITY, CANCEL, STOP = 2, 3, 4, 5, 9, 14
ARGUMENTS = {INIT: 4, SET_LOCALITY: 1}
DONE, NOT_ESTABLISHED = number(0, 4), bytes(4)
UNKNOWN = number(0x0A, 4)

# Requests of Microsoft's simulator: to both ports, to the port for commands, and to the port for
# the platform. IGNORED are those about physical presence, cancelling, NV memory and the cache of
# keys.
SESSION_END, STOP_SIMULATOR = 20, 21
SEND_COMMAND, HANDSHAKE, SET_ALTERNATIVE_RESULT = 8, 15, 16
POWER_ON, POWER_OFF, RESETS = 1, 2, (17, 18)
IGNORED = 3, 4, 9, 10, 11, 12, 13, 14

# The version that a handshake returns, and its features: commands are sent unchanged, and there is
# a platform.
VERSION_AND_FEATURES = number(1, 4) + number(5, 4)
NOT_DONE = number(1, 4)

# The sizes of a request's number, and of the number, the locality and the size before a command.
NUMBER, BEFORE_COMMAND = 4, 9
LOCALITIES = range(5)


class Power:
    """What no command says: whether the TPM has power, and the locality of the next
    commands, which swtpm's control channel sets.
    """

    def __init__(self, cycle: Callable[[], None]) -> None:
        self.cycle, self.is_on, self.locality = cycle, True, 0

    def switch_on(self) -> None:
        """Gives the TPM power; it then expects TPM2_Startup, unless it had power."""
        if not self.is_on:
            self.is_on = True
            self.cycle()


class Protocol(ABC):
    """The requests of one connection. After `is_over`, the connection ends."""

    def __init__(self, execute: Execute, power: Power) -> None:
        self.execute, self.power = execute, power
        self.data, self.is_over = b"", False

    def answers(self, data: bytes) -> bytes:
        """Takes received bytes, and returns the answers to the requests that are complete."""
        self.data += data
        found = b""
        while not self.is_over and len(self.data) >= (size := self.size()):
            request, self.data = self.data[:size], self.data[size:]
            found += self.answer(request)
        return found

    def number_at(self, at: int, size: int = NUMBER) -> int:
        """Returns a number in the received bytes."""
        return int.from_bytes(self.data[at : at + size], "big")

    @abstractmethod
    def size(self) -> int:
        """Returns the size of the next request, or of its start if only that is known so far."""

    @abstractmethod
    def answer(self, request: bytes) -> bytes:
        """Returns the answer to a request."""


class Commands(Protocol):
    """Commands without framing, each of the size in its header."""

    def size(self) -> int:
        known = self.number_at(2) if len(self.data) >= HEADER_BYTES else 0
        return max(known, HEADER_BYTES)

    def answer(self, request: bytes) -> bytes:
        return self.execute(request, self.power.locality)


class Control(Protocol):
    """Requests of swtpm's control channel."""

    def size(self) -> int:
        known = len(self.data) >= NUMBER
        return NUMBER + (ARGUMENTS.get(self.number_at(0), 0) if known else 0)

    def answer(self, request: bytes) -> bytes:
        name = int.from_bytes(request[:NUMBER], "big")
        if name == SET_LOCALITY:
            self.power.locality = request[NUMBER]
        elif name == INIT:
            self.power.cycle()
        elif name == GET_ESTABLISHED:
            return DONE + NOT_ESTABLISHED
        elif name not in (SHUTDOWN, CANCEL, STOP):
            return UNKNOWN
        return DONE


class Simulator(Protocol):
    """Requests at the port for commands of Microsoft's simulator. A dynamic launch is unknown."""

    def size(self) -> int:
        name = self.number_at(0) if len(self.data) >= NUMBER else 0
        if name in (HANDSHAKE, SET_ALTERNATIVE_RESULT):
            return 2 * NUMBER
        if name != SEND_COMMAND:
            return NUMBER
        is_known = len(self.data) >= BEFORE_COMMAND
        return BEFORE_COMMAND + (self.number_at(BEFORE_COMMAND - NUMBER) if is_known else 0)

    def answer(self, request: bytes) -> bytes:
        name = int.from_bytes(request[:NUMBER], "big")
        if name == SEND_COMMAND:
            response = self.response(request[NUMBER], request[BEFORE_COMMAND:])
            return number(len(response), NUMBER) + response + DONE
        if name == HANDSHAKE:
            return VERSION_AND_FEATURES + DONE
        if name == SET_ALTERNATIVE_RESULT:
            return DONE
        return self.ended(name)

    def response(self, locality: int, command: bytes) -> bytes:
        """Returns the response to a command; nothing while the TPM has no power."""
        if not self.power.is_on:
            return b""
        if locality not in LOCALITIES:
            return frames.refusal(frames.code_of("LOCALITY"))
        return self.execute(command, locality)

    def ended(self, name: int) -> bytes:
        """Ends the connection, as a client asks or because it sent an unknown request."""
        self.is_over = True
        return {SESSION_END: b"", STOP_SIMULATOR: DONE}.get(name, NOT_DONE)


class Platform(Simulator):
    """Requests at the port for the platform of Microsoft's simulator."""

    def size(self) -> int:
        return NUMBER

    def answer(self, request: bytes) -> bytes:
        name = int.from_bytes(request, "big")
        if name == POWER_ON:
            self.power.switch_on()
        elif name == POWER_OFF:
            self.power.is_on = False
        elif name in RESETS and self.power.is_on:
            self.power.cycle()
        elif name not in (*RESETS, *IGNORED):
            return self.ended(name)
        return DONE
