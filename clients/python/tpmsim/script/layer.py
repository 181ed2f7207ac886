"""Plays a layered script on a device, and writes the plain script for it."""

import hashlib
import secrets
from typing import Iterator

from tpmsim.caller import Knowledge, Prepared, Refused, Response, WrongResponse
from tpmsim.device import DeviceEnded, Transport, Unsupported
from tpmsim.device.base import Executed, line_in_bytes
from tpmsim.faults import TpmsimError
from tpmsim.model.player import BadLine, hex_bytes, LINE_BYTES, Words
from tpmsim.script.assembler import Assembler, in_bytes, is_computed, value_of
from tpmsim.script.names import Bad, Names, Token, tokens_of
from tpmsim.script.own_device import OwnDevice
from tpmsim.standard import CC, lines, NAMED, Short
from tpmsim.standard.lines import handle_of, handle_word, WORDS, Wrong

WANTED = "do, cmd, loc, wait, entropy, power, let or auth"
# The one field that is not part of a response: the bytes of the last command, for a `cmd` line.
COMMAND = "command"

LET_WANTED = 'NAME = COMMAND.FIELD, or NAME = "TEXT"'


class BadScript(TpmsimError):
    """A wrong line: its number, the column, and the reason as text."""

    def __init__(self, line: int, column: int, words: str) -> None:
        super().__init__(f"line {line}, column {column}: {words}")


class Layer:
    """Plays lines on a device. On a script's own device the nonces are the same in each run."""

    def __init__(self, device: Transport, traces: bool = False) -> None:
        self.device, self.traces, self.nonces = device, traces, 0
        self.knowledge = Knowledge(self.nonce)
        self.assembler, self.names = Assembler(self.knowledge), Names(self.nonce)
        self.answers: dict[CC, Response | Refused] = {}
        self.buffers: dict[CC, bytes] = {}

    def nonce(self, size: int) -> bytes:
        """Returns a nonce. For the script's own device, the nonces are the same in each run."""
        if not isinstance(self.device, OwnDevice):
            return secrets.token_bytes(size)
        self.nonces += 1
        return hashlib.shake_256(b"nonce %d" % self.nonces).digest(size)

    def plain(self, script: str) -> Iterator[str]:
        """Yields the lines of the plain script; raises BadScript if a line is wrong."""
        for number, line in enumerate(script.removesuffix("\n").split("\n"), 1):
            try:
                yield from self.play(line)
            except Bad as bad:
                raise BadScript(number, bad.column, str(bad)) from None
            except (DeviceEnded, Unsupported, WrongResponse, TimeoutError) as fault:
                raise BadScript(number, 1, str(fault)) from None
            except Short:
                raise BadScript(number, 1, "the response is cut off") from None

    def play(self, line: str) -> list[str]:
        """Plays a line, and returns the lines of the plain script."""
        if not line or line.startswith("#"):
            return [line]
        word, space, rest = line.partition(" ")
        column = len(word) + 2
        if word == "do" and space:
            return self.do(rest, column)
        if word == "let" and space:
            return [self.let(rest, column)]
        if word == "auth" and space:
            return [self.auth(rest, column)]
        if line == "power":
            self.device.power_cycle()
            self.assembler.power_cycle()
            return [line]
        if word == "cmd":
            given = self.names.put(Token(rest, column)).text
            return self.bytes_told(given, column)
        if word in ("loc", "wait", "entropy") and space:
            return [self.event(word, self.names.put(Token(rest, column)))]
        raise Bad(1, f"a line begins with {WANTED}")

    # Commands.

    def do(self, rest: str, column: int) -> list[str]:
        """Plays a command."""
        tokens = [self.names.put(it) for it in tokens_of(rest, column)]
        prepared = self.assembler.prepared(tokens)
        line = " ".join(it.text for it in tokens)
        if any(map(is_computed, tokens)):
            line = str(lines.line_of(prepared.buffer()))
        return self.execute(prepared, f"do {line}")

    def bytes_told(self, given: str, column: int) -> list[str]:
        """Sends a buffer, and learns from the response if a line encodes the buffer."""
        try:
            buffer = hex_bytes(in_bytes(given))
        except BadLine:
            raise Bad(column, "the bytes of a command are hex") from None
        line = lines.line_of(buffer)
        if line is None:
            return self.told(self.sent(buffer), line_in_bytes(buffer))
        prepared = self.assembler.prepared(list(tokens_of(line, column)))
        return self.execute(prepared, line_in_bytes(buffer))

    def execute(self, prepared: Prepared, line: str) -> list[str]:
        """Sends a command, learns from its response, and returns the lines for it."""
        executed = self.sent(prepared.buffer())
        self.buffers[prepared.code] = executed.buffer
        code = int.from_bytes(executed.response[6:10], "big")
        if code:
            self.assembler.refused()
            self.answers[prepared.code] = Refused(prepared, code, executed.check)
        else:
            answer = self.assembler.learn(prepared, executed.response)
            self.answers[prepared.code] = answer
        return self.told(executed, line)

    def sent(self, buffer: bytes) -> Executed:
        """Sends a command, and returns its event."""
        self.device.execute(buffer)
        event = self.device.events[-1]
        assert isinstance(event, Executed)
        return event

    def told(self, executed: Executed, line: str) -> list[str]:
        """Returns the lines for a command: the random bytes that it drew, the command, and its
        trace.
        """
        draws = isinstance(self.device, OwnDevice) and self.device.said is None and executed.random
        entropy = [f"entropy {executed.random.hex()}"] if draws and executed.random else []
        if len(line) > LINE_BYTES:
            raise Bad(1, f"the plain line has over {LINE_BYTES} bytes")
        return [*entropy, line, *([f"# {executed.traced}"] if self.traces else [])]

    def event(self, word: str, given: Token) -> str:
        """Sets a locality, a wait, or random bytes for later commands."""
        words = Words()
        try:
            words.told(in_bytes(word), in_bytes(given.text))
        except BadLine:
            raise Bad(given.column, f"{given.text} is nothing that {word} takes") from None
        if word == "loc":
            self.device.locality = words.locality
        elif word == "wait":
            self.wait(words.elapsed, given.column)
        elif isinstance(self.device, OwnDevice):
            self.device.said = words.random
        else:
            raise Unsupported("the random bytes of this device cannot be set")
        return f"{word} {given.text}"

    def wait(self, milliseconds: int, column: int) -> None:
        """Lets time pass."""
        try:
            self.device.wait(milliseconds)
        except ValueError as fault:
            raise Bad(column, str(fault)) from None

    # Names and values.

    def auth(self, rest: str, column: int) -> str:
        """`auth HANDLE VALUE`: sets the authorization value of a handle, which later lines use."""
        tokens = [self.names.put(it) for it in tokens_of(rest, column)]
        if len(tokens) != 2:
            raise Bad(column, "auth takes a handle and its value")
        try:
            handle = handle_of(in_bytes(tokens[0].text))
        except Wrong:
            raise Bad(tokens[0].column, f"{tokens[0].text} is no handle") from None
        self.knowledge.auth_values[handle] = value_of(tokens[1])
        return f"# auth {tokens[0].text} {tokens[1].text}"

    def let(self, rest: str, column: int) -> str:
        """Plays a `let`, which names a value."""
        name, equals, value = rest.partition(" = ")
        if not equals:
            raise Bad(column, f"let takes {LET_WANTED}")
        self.names.check(Token(name, column))
        word = self.value(Token(value, column + len(name) + len(equals)))
        self.names.values[name] = word
        return f"# let {name} = {word}"

    def value(self, given: Token) -> str:
        """Returns the word for a field of the last response, or for a text in quotes."""
        text = given.text
        if text.startswith('"') and text.endswith('"') and len(text) > 1:
            return lines.hex_word(in_bytes(text[1:-1]))
        command, dot, field = text.partition(".")
        if not dot or command not in NAMED:
            raise Bad(given.column, f"a value is COMMAND.FIELD, or a text in quotes, not {text}")
        answer = self.answers.get(CC[command])
        if answer is None:
            raise Bad(given.column, f"{command} was not answered yet")
        if field == COMMAND:
            return self.buffers[CC[command]].hex()
        if isinstance(answer, Refused):
            raise Bad(given.column, f"{answer}: a refusal has no fields")
        return self.field(answer, Token(field, given.column + len(command) + 1))

    @staticmethod
    def field(answer: Response, given: Token) -> str:
        """Returns the word for the field with this name from Part 3; `.N` selects element N of a
        list, counted from 0.
        """
        name, dot, at = given.text.partition(".")
        words = {it.name: handle_word(answer.handle or 0) for it in answer.code.answered_handles}
        for it in answer.code.answered_parameters:
            if it.kind in WORDS:
                words[it.name] = WORDS[it.kind].shown(answer[it.name])
        if name not in words:
            known = ", ".join(words) or "nothing"
            raise Bad(given.column, f"{answer.code.name} answers {known}, and not {name}")
        if not dot:
            return words[name]
        elements = words[name].split("+")
        if not at.isdecimal() or int(at) >= len(elements):
            column = given.column + len(name) + 1
            raise Bad(column, f"{name} has the elements 0 to {len(elements) - 1}, and no {at}")
        return elements[int(at)]
