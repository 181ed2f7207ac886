"""Prints the scripts of tests/ and examples/ in which sessions encrypt, as lines of JSON. Each line
contains the decrypted first parameters of commands and responses, with their line numbers in the
script. The Python device decrypts them. page_plain.mjs compares the page's values with these.
"""

import json

from tpmsim.model.machine import Model
from tpmsim.records.reader import Command, Power, steps_of
from tpmsim.standard import DECRYPT, ENCRYPT, Fields
from tests.common import places

MOST_BYTES = 500_000


class Watched(Model):
    """A device that records what it decrypted, and what it is about to encrypt."""

    decrypted: bytes | None = None
    answered: bytes | None = None

    def plain_parameters(self, command):
        plain = super().plain_parameters(command)
        if command.with_attribute(DECRYPT):
            self.decrypted = Fields(plain).sized()
        return plain

    def answered_parameters(self, command, parameters):
        if command.with_attribute(ENCRYPT):
            self.answered = Fields(parameters).sized()
        return super().answered_parameters(command, parameters)


def plain_of(script):
    """Returns the decrypted first parameters of commands and of responses, by line number from 0."""
    device, asked, answered = Watched(), {}, {}
    for step in steps_of(script):
        if isinstance(step, Power):
            device.power_cycle()
        if not isinstance(step, Command):
            continue
        device.decrypted = device.answered = None
        device.execute(step.buffer, step.locality, step.random, step.elapsed)
        if device.decrypted is not None:
            asked[step.line - 1] = device.decrypted.hex()
        if device.answered is not None:
            answered[step.line - 1] = device.answered.hex()
    return asked, answered


def main():
    for path in places.scripts():
        script = path.read_bytes()
        if b" s:0" not in script or len(script) > MOST_BYTES:
            continue
        asked, answered = plain_of(script)
        if asked or answered:
            print(json.dumps([str(path), asked, answered]))


if __name__ == "__main__":
    main()
