"""Interrupts a call at one of the lines that it executes."""

import contextlib
import sys
from types import FrameType
from typing import Any, Callable, Iterator


@contextlib.contextmanager
def interrupting(
    left: int, package: str, is_exempt: Callable[[FrameType], bool] = lambda _: False
) -> Iterator[None]:
    """Raises KeyboardInterrupt at the `left`-th line that is executed in the files of a package.
    Lines for which `is_exempt` is true do not count.
    """

    def trace(frame: FrameType, event: str, _: object) -> Any:
        nonlocal left
        if not frame.f_code.co_filename.startswith(package):
            return None
        if event == "line" and not is_exempt(frame):
            left -= 1
            if not left:
                raise KeyboardInterrupt
        return trace

    sys.settrace(trace)
    try:
        yield
    finally:
        sys.settrace(None)


def interrupted(act: Callable[[], object], left: int, package: str) -> bool:
    """Calls `act`, and interrupts it at the `left`-th line that it executes in the files of a
    package. Returns whether it executes that many lines.
    """
    try:
        with interrupting(left, package):
            act()
    except KeyboardInterrupt:
        return True
    return False
