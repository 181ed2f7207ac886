"""Refusals that were asked for, and that no command has met yet."""

from __future__ import annotations

from dataclasses import dataclass

from tpmsim.refuse.finding import Event, Found, found, name_of, Wanted
from tpmsim.standard.rows import name_of_code, rows_named


@dataclass
class Asked:
    """The refusal that the next command with this name has to meet."""

    name: str
    wanted: Wanted


class Pending:
    """The refusals that the next commands of a device have to meet, in order."""

    def __init__(self) -> None:
        self.asked = list[Asked]()

    def add(self, command: str, check: str, code: int | str | None) -> None:
        """Adds a refusal; raises BadValue if the table has none such for this command."""
        rows_named(command, check, name_of_code(code) if isinstance(code, int) else code or "")
        self.asked.append(Asked(command, Wanted.of(check, code)))

    def met(self, text: bytes, event: Event) -> Found | None:
        """Returns the change under which a command meets the first refusal that was asked for it;
        None if none was. Raises Unrefusable if there is no such change. Either way the refusal is no
        longer pending.
        """
        for asked in self.asked:
            if asked.name == event.name:
                self.asked.remove(asked)
                return found(text, event, asked.wanted)
        return None

    def has(self, buffer: bytes) -> bool:
        """Returns whether a refusal is pending for the command in a buffer."""
        return any(it.name == name_of(buffer) for it in self.asked)
