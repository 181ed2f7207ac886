"""Reads fields from bytes, in order."""

from tpmsim.faults import TpmsimError


class Short(TpmsimError):
    """Fewer bytes are left than needed."""


class Fields:
    """Bytes from which fields are read, in order."""

    def __init__(self, data: bytes) -> None:
        self.data = data

    def take(self, count: int) -> bytes:
        """Returns the next bytes; raises Short if fewer are left."""
        if count > len(self.data):
            raise Short
        taken, self.data = self.data[:count], self.data[count:]
        return taken

    def number(self, size: int) -> int:
        """Returns the next number, in big-endian order."""
        data = self.data
        if size > len(data):
            raise Short
        self.data = data[size:]
        return int.from_bytes(data[:size], "big")

    def sized(self) -> bytes:
        """Returns the next buffer, which is preceded by its size."""
        return self.take(self.number(2))
