"""Named values, and the error for a line of a layered script."""

import re
from typing import Callable, Iterator, NamedTuple

from tpmsim.faults import TpmsimError

NAME = re.compile(r"[A-Za-z_][A-Za-z0-9_]*")
REFERENCE = re.compile(rf"\$(?:\{{({NAME.pattern})\}}|({NAME.pattern}))?")

# The reserved name: each `$nonce` becomes a new nonce.
NONCE, NONCE_BYTES = "nonce", 16


class Bad(TpmsimError):
    """The error of a line, as text, and the column where it starts, counted from 1."""

    def __init__(self, column: int, words: str) -> None:
        super().__init__(words)
        self.column = column


class Token(NamedTuple):
    """A word of a line, and the column where it starts."""

    text: str
    column: int


def tokens_of(text: str, column: int) -> Iterator[Token]:
    """Yields the words of a text, with their columns. The text starts at `column`, and words are
    separated by one space.
    """
    for word in text.split(" "):
        yield Token(word, column)
        column += len(word) + 1


class Names:
    """The values that a script has named, each as a word of a plain script."""

    def __init__(self, nonce: Callable[[int], bytes]) -> None:
        self.nonce = nonce
        self.values: dict[str, str] = {}

    def value(self, name: str) -> str | None:
        """Returns the value of a name, or None if the name has no value."""
        return self.nonce(NONCE_BYTES).hex() if name == NONCE else self.values.get(name)

    def put(self, token: Token) -> Token:
        """Returns a word with its names replaced by their values; raises Bad for an unknown name."""

        def value(found: re.Match[str]) -> str:
            column = token.column + found.start()
            name = found[1] or found[2]
            if name is None:
                raise Bad(column, "a name follows $, as in $NAME or ${NAME}")
            value = self.value(name)
            if value is None:
                raise Bad(column, f"nothing is named {name}")
            return value

        return Token(REFERENCE.sub(value, token.text), token.column)

    @staticmethod
    def check(name: Token) -> None:
        """Raises Bad unless a script may define this name."""
        if not NAME.fullmatch(name.text):
            raise Bad(name.column, "a name is letters, digits and _, and begins with no digit")
        if name.text == NONCE:
            raise Bad(name.column, "$nonce is a new nonce each time")
