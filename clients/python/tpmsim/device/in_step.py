"""A connection to a device that answers each command before it receives the next one."""

from typing import Callable, TypeVar

from tpmsim.device.base import DeviceEnded, Transport

CLOSED = "the connection is closed"
NOT_ENDED = "the connection was closed, since a command did not end"

Done = TypeVar("Done")


class InStep(Transport):
    """A connection that is closed if an exchange does not complete, for whatever reason. Otherwise
    the next command would get the response to the interrupted one. Each later call raises
    DeviceEnded with the reason.
    """

    # Why the connection is closed; empty while it is open. An exchange sets it at its start, and
    # clears it at its end.
    why_closed = ""

    def whole(self, exchange: Callable[[], Done]) -> Done:
        """Returns the result of an exchange; if it is interrupted, the connection is closed."""
        if self.why_closed:
            self.hang_up()  # again, since an interrupt may have stopped the first call
            raise DeviceEnded(self.why_closed)
        self.why_closed = NOT_ENDED
        try:
            done = exchange()
            self.why_closed = ""
            return done
        finally:
            if self.why_closed:
                self.hang_up()

    def hang_up(self) -> None:
        """Closes the connection, if it is open, without sending anything."""
        raise NotImplementedError

    def close(self) -> None:
        self.why_closed = self.why_closed or CLOSED
        self.hang_up()
