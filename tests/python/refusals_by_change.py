"""Counts the refusals that a change of the state brings to commands of correct clients:

    refusals_by_change.py PROGRAM

tests/python/accepted.py has the commands, which the device accepts. tpmsim.refuse changes the state
before each of them, for each refusal that it then meets. The program has to refuse the command on
the changed device by exactly this check and with this code. Each refusal that depends on the state
is reached so, or tpmsim.refuse.reasons says why none can be; and not both. At the end the refusals
that the examples alone reach are counted, and again without some of the changes, which reach less.
"""

from __future__ import annotations

import concurrent.futures
import sys
from collections.abc import Iterator
from unittest import mock

from tpmsim.device import ChildDevice
from tpmsim.refuse import device_changes, entity_changes, session_changes
from tpmsim.refuse.finding import Event, Found, Met, rows_near
from tpmsim.refuse.reasons import reason_of
from tpmsim.standard import Profile
from tpmsim.standard.rows import all_rows, Kind, Row
from tests.python.accepted import accepted, Accepted

AT_ONCE = 2

# A row, and the first command that meets it after a change.
Reached = dict[Row, tuple[Accepted, Found]]

ROWS = {(it.command, it.check, it.code): it for it in all_rows(Profile.SYMMETRIC)}
BY_STATE = [it for it in ROWS.values() if it.kind == Kind.STATE]


def reached(those: list[Accepted]) -> Reached:
    """Returns the rows that changes bring to commands."""
    found: Reached = {}
    for it in those:
        for change in rows_near(it.text, Event(it.buffer)):
            row = ROWS[it.code, change.met.check, change.met.code]
            found.setdefault(row, (it, change))
    return found


def met_on(program: str, command: Accepted, change: Found) -> Met:
    """Returns the row that the program's device meets after a change."""
    with ChildDevice(program=program) as device:
        device.restore(change.text)
        answered = device.execute(command.buffer)
        return Met(answered.check or "", int.from_bytes(answered.response[6:10], "big"))


def differing(program: str, found: Reached) -> Iterator[str]:
    """Yields what the program answers otherwise than expected."""
    with concurrent.futures.ThreadPoolExecutor(AT_ONCE) as pool:
        mets = pool.map(lambda it: met_on(program, *it), found.values())
        for row, (_, change), met in zip(found, found.values(), mets):
            if met != change.met:
                yield f'{row.name} {change.met}, after "{change.words}": {met}'


def unexplained(found: Reached) -> Iterator[str]:
    """Yields the refusals that are not reached although nothing says why, and those that are."""
    for row in BY_STATE:
        if (row in found) == bool(reason_of(row)):
            word = "is reached" if row in found else "is not reached"
            yield f"{row.name} {row.check} {row.code_name} {word}: {reason_of(row) or 'why?'}"


def count_of(found: Reached) -> int:
    return sum(it in found for it in BY_STATE)


def fewer(those: list[Accepted]) -> Iterator[tuple[str, int]]:
    """Yields the number of refusals that the examples reach, with all and without some changes."""
    yield "with all changes", count_of(reached(those))
    for module, name in (
        (device_changes, "of_slots"),
        (device_changes, "of_power"),
        (entity_changes, "names"),
        (session_changes, "of_sessions"),
    ):
        with mock.patch.object(module, name, lambda *given: iter(())):
            yield f"without {name}", count_of(reached(those))


def main() -> int:
    """Prints the counts; the status is 1 if anything differs or is not explained."""
    those = list(accepted())
    found = reached(those)
    print(f"{count_of(found)} of the {len(BY_STATE)} refusals by state are reached")
    wrong = [*differing(sys.argv[1], found), *unexplained(found)]
    print(f"on the program: {len(wrong)} differ")
    for it in wrong:
        print(f"DIFFERS: {it}")
    reasons = [reason_of(it) for it in BY_STATE]
    for reason in dict.fromkeys(filter(None, reasons)):
        print(f"{reasons.count(reason)} are not: {reason}")
    examples = {it.code: it for it in reversed(those)}
    for words, count in fewer(list(examples.values())):
        print(f"the examples alone, {words}: {count}")
    return 1 if wrong else 0


if __name__ == "__main__":
    sys.exit(main())
