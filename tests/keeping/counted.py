"""Computes the possible values of a counter in a device that is kept in a folder, after commands of
which some were answered and some failed.

Operations are recorded as they happen: either one operation with its answer, or several operations
of which perhaps only the first few were done. The records determine a set of possible states. An
answer that is not possible in any of these states is wrong.
"""

from dataclasses import dataclass, replace
from typing import Iterable, Iterator

BEGIN, POWER, SUSPEND, STARTUP = "begin", "power", "suspend", "startup"
DEFINE, INCREMENT, READ = "define", "increment", "read"
INDEX = "01000002"
COMMANDS = {
    STARTUP: bytes.fromhex("80010000000c000001440000"),
    DEFINE: bytes.fromhex(
        f"80020000002d0000012a40000001000000094000000900000100000000000e{INDEX}000b0002001200000008"
    ),
    INCREMENT: bytes.fromhex(f"80020000001f0000013440000001{INDEX}00000009400000090000010000"),
    READ: bytes.fromhex(f"8002000000230000014e40000001{INDEX}0000000940000009000001000000080000"),
}
SUCCESS, INITIALIZE, NO_INDEX, DEFINED, UNWRITTEN = 0, 0x100, 0x28B, 0x14C, 0x14A


@dataclass(frozen=True, order=True)
class State:
    """A device with its counter, or no device."""

    is_there: bool = False
    is_started: bool = False
    is_defined: bool = False
    count: int = 0


NOTHING = State()


def outcome(state: State, act: str) -> tuple[State, object]:
    """Returns the state after an operation, and the operation's answer: a response code, the count,
    or None.
    """
    if act == BEGIN:
        return replace(state, is_there=True), None
    if act == POWER:
        return replace(state, is_started=False), None
    if act == SUSPEND:
        return state, None
    if act == STARTUP:
        return replace(state, is_started=True), INITIALIZE if state.is_started else SUCCESS
    if not state.is_started:
        return state, INITIALIZE
    if act == DEFINE:
        return replace(state, is_defined=True), DEFINED if state.is_defined else SUCCESS
    if not state.is_defined:
        return state, NO_INDEX
    if act == INCREMENT:
        return replace(state, count=state.count + 1), SUCCESS
    return state, ("count", state.count) if state.count else UNWRITTEN


def answer_of(act: str, response: bytes) -> object:
    """Returns the answer that a response contains, in the form in which `outcome` returns answers."""
    if act not in COMMANDS:
        return None
    code = int.from_bytes(response[6:10], "big")
    if act != READ or code:
        return code
    return "count", int.from_bytes(response[16:24], "big")


class Counted:
    """The possible states of a device, and those that it may have had since the last power cycle."""

    def __init__(self, states: Iterable[State]) -> None:
        self.states = set(states)
        self.since = set(self.states)

    def answers(self, act: str, response: bytes) -> bool:
        """Records that an operation was answered. Returns whether one of the possible states allows
        the answer.
        """
        told = answer_of(act, response)
        after = (outcome(state, act) for state in self.states if state.is_there or act == BEGIN)
        self.becomes(act, {state for state, answer in after if answer == told})
        return bool(self.states)

    def becomes(self, act: str, states: set[State]) -> None:
        """Records the states after an operation. A crash of the system may undo the operation,
        unless it is a power cycle.
        """
        before = set() if act == POWER else {it for it in self.since if it.is_there}
        self.states, self.since = states, before | states

    def has(self, acts: Iterable[str]) -> None:
        """Records that operations were done, whatever their answers were."""
        for act in acts:
            there = (it for it in self.states if it.is_there or act == BEGIN)
            self.becomes(act, {outcome(it, act)[0] for it in there})

    def may_have(self, acts: Iterable[str]) -> None:
        """Records that operations were requested. Perhaps none, only the first few, or all of them
        were done.
        """
        done = set(self.states)
        for act in acts:
            done = {outcome(it, act)[0] if it.is_there or act == BEGIN else it for it in done}
            self.states |= done

    def __iter__(self) -> Iterator[State]:
        return iter(sorted(self.states))
