"""All refusals of the device, as docs/table lists them: for each command the checks that can refuse
it, with each response code. They are derived from the descriptions of the commands, the kinds of
their handles, the parsers of their parameters, and the table's sentences about A1 to A7.

MEMORY (check M) is not among them, since the program never returns it.
"""

from __future__ import annotations

import enum
import functools
import re
from dataclasses import dataclass
from typing import Iterator

from tpmsim.explain.reason import RULES
from tpmsim.faults import BadValue
from tpmsim.model.parameter_faults import parameter_faults
from tpmsim.standard.commands import CC, close_name, Fact, Handle, HandleKind, Profile
from tpmsim.standard.frames import code_of, MOST_ENTRIES, NV, PERSISTENT, POLICY_SESSION
from tpmsim.standard.frames import spelled_code, TRANSIENT
from tpmsim.standard.handle_kinds import IS_OF_KIND

# The name of an unknown command in a trace, and the largest number of a command's own checks.
UNKNOWN, MOST_OWN_CHECKS = "?", 9


class Kind(enum.Enum):
    """What a refusal depends on. STATE: what the device is or contains, so that a correct client
    can get it. VALUE: the value of a parameter. SESSION: like STATE, but in the second or third
    entry of a command. FORM: the bytes of the command alone, which no library sends.
    """

    STATE = "state"
    VALUE = "value"
    SESSION = "session"
    FORM = "form"


@dataclass(frozen=True)
class HeaderRow:
    """A refusal of a buffer by G1 to G4, before its command is known."""

    check: str
    code: int
    kind: Kind = Kind.FORM

    @property
    def name(self) -> str:
        """The name of the command in a trace."""
        return UNKNOWN

    @property
    def code_name(self) -> str:
        """The name of the response code, such as HASH/p1."""
        return name_of_code(self.code)

    @property
    def is_far(self) -> bool:
        """Whether only a device whose counters are near 2^64 gives this refusal."""
        return False

    @property
    def profile(self) -> Profile:
        """The profile of a device that gives this refusal."""
        return Profile.SYMMETRIC


@dataclass(frozen=True)
class Row:
    """A refusal of a command: the check that refuses it, such as G6 or A2, and the response code."""

    command: CC
    check: str
    code: int
    kind: Kind

    @property
    def name(self) -> str:
        """The name of the command in a trace."""
        return self.command.name

    @property
    def code_name(self) -> str:
        """The name of the response code, such as HASH/p1."""
        return name_of_code(self.code)

    @property
    def is_far(self) -> bool:
        """Whether only a device whose counters are near 2^64 gives this refusal."""
        return (self.command, self.check) in FAR

    @property
    def profile(self) -> Profile:
        """The profile of a device that gives this refusal: COMPLETE if only such a device serves
        the command.
        """
        only = self.command.has(Fact.COMPLETE_ONLY)
        return Profile.COMPLETE if only else Profile.SYMMETRIC


AnyRow = HeaderRow | Row

# A refusal of some command: its check, the name of its response code, and its kind.
Refused = tuple[str, str, Kind]

# The rows that a device gives only if its counters are near 2^64. No script reaches them, but a
# state text can contain such counters.
FAR = {
    *((CC.PCR_Extend, "A2"), (CC.PCR_Event, "A2"), (CC.PCR_Reset, "A2"), (CC.Clear, "A2")),
    (CC.NV_Increment, "A4"),
}

# The own checks that look at the parameters and the handles alone. All others also look at the
# device.
OF_VALUES = {
    CC.IncrementalSelfTest: "A1",
    CC.GetCapability: "A1 A2",
    CC.ClockRateAdjust: "A1",
    CC.NV_DefineSpace: "A1 A2 A3 A4",
    CC.NV_ChangeAuth: "A1",
    CC.NV_Read: "A4",
    CC.CreatePrimary: "A1 A2 A3 A4 A5 A6",
    CC.Create: "A2 A3 A4 A5 A6 A7",
    CC.Load: "A2 A3 A4",
    CC.PolicyCommandCode: "A2",
    CC.PolicyCpHash: "A1",
    CC.PolicySecret: "A1 A2",
    CC.StartAuthSession: "A1 A2 A3",
    CC.FlushContext: "A1",
    CC.EvictControl: "A3 A4",
    CC.ClearControl: "A1",
}

# The first response code in a sentence, such as VALUE/p1 (1C4).
CODE = re.compile(r"([A-Z_]+(?:/[hps]\d)?) \([0-9A-F]{3}\)")


@functools.cache
def name_of_code(code: int) -> str:
    """Returns the name of a response code with its place, such as HASH/p1."""
    name, place = spelled_code(code)
    return f"{name}/{place}" if place else name


HEADER_ROWS = tuple(
    HeaderRow(check, code_of(name))
    for check, name in (
        *(("G1", "COMMAND_SIZE"), ("G2", "BAD_TAG"), ("G3", "COMMAND_SIZE")),
        ("G4", "COMMAND_CODE"),
    )
)


def may_be(handle: Handle, first_byte: int) -> bool:
    """Whether a handle may have this first byte, of which not every handle has an entity."""
    return IS_OF_KIND[handle.kind](first_byte << 24)


def handle_refusals(command: CC) -> Iterator[Refused]:
    """Yields the refusals by G6."""
    for place, it in enumerate(command.handles, 1):
        yield "G6", f"INSUFFICIENT/h{place}", Kind.FORM
        yield "G6", f"VALUE/h{place}", Kind.FORM
        if may_be(it, TRANSIENT) or may_be(it, POLICY_SESSION):
            yield "G6", f"REFERENCE_H{place - 1}", Kind.STATE
        if may_be(it, PERSISTENT) or may_be(it, NV):
            yield "G6", f"HANDLE/h{place}", Kind.STATE


def area_refusals(command: CC) -> Iterator[Refused]:
    """Yields the refusals by G7, and by G8 of the entries."""
    if command.authorized:
        yield "G7", "AUTH_MISSING", Kind.FORM
    if command.has(Fact.NO_SESSIONS):
        yield "G7", "AUTH_CONTEXT", Kind.FORM
        return
    yield "G8", "AUTHSIZE", Kind.FORM
    for place in range(1, MOST_ENTRIES + 1):
        yield from entry_refusals(command, place)


def entry_refusals(command: CC, place: int) -> Iterator[Refused]:
    """Yields the refusals by G8 of the entry at `place`."""
    yield "G8", f"SIZE/s{place}", Kind.FORM
    yield "G8", f"VALUE/s{place}", Kind.FORM
    yield "G8", f"REFERENCE_S{place - 1}", kind_at(place)
    # A password that authorizes nothing, or a session of an earlier entry.
    if place > 1 or not command.authorized:
        yield "G8", f"HANDLE/s{place}", Kind.FORM
    yield "G8", f"RESERVED_BITS/s{place}", Kind.FORM
    yield "G8", f"ATTRIBUTES/s{place}", Kind.FORM
    if command.takes_sized or command.answers_sized:
        yield "G8", f"SYMMETRIC/s{place}", Kind.FORM


def kind_at(place: int) -> Kind:
    """Returns the kind of a refusal that depends on the session of the entry at `place`."""
    return Kind.STATE if place == 1 else Kind.SESSION


def authorization_refusals(command: CC) -> Iterator[Refused]:
    """Yields the refusals by G9. A policy can authorize only an object or an NV index."""
    if not command.authorized:
        return
    handle = command.handles[0]
    names = ["ATTRIBUTES/s1", "AUTH_UNAVAILABLE", "LOCKOUT", "AUTH_FAIL/s1"]
    # The authorization value of TPM_RH_LOCKOUT is protected, whatever the entry is.
    names += ["BAD_AUTH/s1"] if handle.kind != HandleKind.LOCKOUT else []
    if may_be(handle, TRANSIENT) or may_be(handle, NV):
        names += ["PCR_CHANGED", "POLICY_CC/s1", "POLICY_FAIL/s1", "LOCALITY"]
    for name in names:
        yield "G9", name, Kind.STATE


def session_refusals(command: CC) -> Iterator[Refused]:
    """Yields the refusals by G10."""
    if command.has(Fact.NO_SESSIONS):
        return
    for place in range(command.authorized + 1, MOST_ENTRIES + 1):
        yield "G10", f"AUTH_FAIL/s{place}", kind_at(place)
        yield "G10", f"BAD_AUTH/s{place}", kind_at(place)
    yield "G10", "LOCKOUT", Kind.STATE
    if command.takes_sized:
        yield "G10", "INSUFFICIENT/p1", Kind.FORM


def parameter_refusals(command: CC) -> Iterator[Refused]:
    """Yields the refusals by G11."""
    for name in sorted(parameter_faults(command)):
        is_cut = name.startswith("INSUFFICIENT")
        yield "G11", name, Kind.FORM if is_cut else Kind.VALUE
    yield "G11", "SIZE", Kind.FORM


def own_refusals(command: CC) -> Iterator[Refused]:
    """Yields the refusals by the command's own checks, each with the code that its sentence names."""
    for check in (f"A{number}" for number in range(1, MOST_OWN_CHECKS + 1)):
        if rule := RULES.get(f"{command.name}/{check}"):
            found = CODE.search(rule[0])
            assert found, rule[0]
            is_of_values = check in OF_VALUES.get(command, "").split()
            yield check, found[1], Kind.VALUE if is_of_values else Kind.STATE


def refusals(command: CC) -> Iterator[Refused]:
    """Yields the refusals of a command in the table's order."""
    yield "G5", "INITIALIZE", Kind.STATE
    yield from handle_refusals(command)
    yield from area_refusals(command)
    yield from authorization_refusals(command)
    yield from session_refusals(command)
    yield from parameter_refusals(command)
    yield from own_refusals(command)


@functools.cache
def rows_of(command: CC) -> tuple[Row, ...]:
    """Returns the refusals of one command, in the table's order."""
    return tuple(Row(command, check, code_of(it), kind) for check, it, kind in refusals(command))


@functools.cache
def all_rows(profile: Profile = Profile.COMPLETE) -> tuple[Row, ...]:
    """Returns the refusals of all commands that a device of the profile serves. HEADER_ROWS has
    those of unknown commands.
    """
    return tuple(row for command in profile.commands.values() for row in rows_of(command))


def every_row() -> tuple[AnyRow, ...]:
    """Returns all refusals, those of unknown commands first."""
    return *HEADER_ROWS, *all_rows()


def rows_named(command: str, check: str = "", code: str = "") -> list[AnyRow]:
    """Returns the rows of a command, of one of its checks, or with one response code, by their
    names. Raises BadValue if there is none.
    """
    rows: tuple[AnyRow, ...] = HEADER_ROWS
    if command != UNKNOWN:
        if command not in CC.__members__:
            close = close_name(command, CC.__members__)
            names = f"{close} or another name" if close else f"one of {', '.join(CC.__members__)}"
            raise BadValue("command", command, names)
        rows = rows_of(CC[command])
    of_check = [it for it in rows if check in ("", it.check)]
    found = [it for it in of_check if code in ("", it.code_name)]
    if not of_check:
        checks = dict.fromkeys(it.check for it in rows)
        raise BadValue("check", check, f"one of {', '.join(checks)}")
    if not found:
        raise BadValue("code", code, f"one of {', '.join(it.code_name for it in of_check)}")
    return found
