"""The printed output of a script, compared line by line with the expected output."""

from typing import Iterable, Iterator

from tpmsim.faults import TpmsimError

SHOWN, BEFORE = 96, 24


class Disagreement(TpmsimError):
    """The difference between a log and the expected log, as text."""


def shown(text: str, first: int) -> str:
    """Returns a text in quotation marks. If the text is long, returns only the part around the
    offset `first`.
    """
    plain = "".join(it if it.isprintable() else "?" for it in text)
    begin = max(0, first - BEFORE) if len(plain) > SHOWN else 0
    cut = plain[begin : begin + SHOWN]
    return f'"{".." if begin else ""}{cut}{".." if begin + SHOWN < len(plain) else ""}"'


def both(given: str, wanted: str) -> str:
    pairs = zip(given, wanted)
    first = next((at for at, (a, b) in enumerate(pairs) if a != b), min(len(given), len(wanted)))
    said, due = shown(given, first), shown(wanted, first)
    return f"the log says {said}, but a device with this start answers {due}"


def section(title: str, told: Iterable[str], none: str) -> Iterator[str]:
    """Yields a section of a report: the title and the lines, or the line `none` if there are no
    lines.
    """
    rows = list(told)
    yield title if rows else none
    yield from rows


class Log:
    """The lines of an output. Each ends with a newline, except a last line that was cut off."""

    def __init__(self, text: bytes) -> None:
        self.lines = text.decode("latin-1").split("\n")
        self.is_whole = self.lines[-1] == ""
        if self.is_whole:
            self.lines.pop()
        self.at = 0

    @property
    def left(self) -> int:
        return len(self.lines) - self.at

    def check(self, printed: list[str], has_answer: bool) -> None:
        """Compares the next lines of the output with the expected lines; raises Disagreement if
        they differ.
        """
        for wanted in printed:
            if not self.left:
                raise Disagreement("the log is cut: the output of this line is missing")
            given = self.lines[self.at]
            self.at += 1
            if given != wanted:
                if not self.left and not self.is_whole and wanted.startswith(given):
                    raise Disagreement("the log is cut: the output of this line is incomplete")
                raise Disagreement(both(given, wanted))

    def end(self) -> None:
        """Raises Disagreement if the output has more lines after the end of the script."""
        if self.left:
            lines = "a line" if self.left == 1 else f"{self.left} lines"
            raise Disagreement(f"the log has {lines} more than the output of the script")


class NoLog(Log):
    """No output. The script itself records the response to each command, as a journal does."""

    def __init__(self) -> None:
        super().__init__(b"")

    def check(self, printed: list[str], has_answer: bool) -> None:
        if not has_answer:
            raise Disagreement("nothing says what the response was")
