"""Finds entries that encrypt with an authorization value that the caller did not have to know.
Anyone who has the ciphertext can test guesses of the value without the device. These guesses do not
count as failed tries (docs/table/lockout.md).
"""

from typing import Iterator

from tpmsim.audit.ground import Use
from tpmsim.audit.log import section
from tpmsim.audit.session_lines import SessionLines
from tpmsim.explain import unshown
from tpmsim.explain.words import command_words, handle_words
from tpmsim.standard import policy


class OfflineGuesses:
    def __init__(self, sessions: SessionLines) -> None:
        self.sessions, self.told = sessions, list[str]()

    def note(self, use: Use) -> None:
        """Notes an accepted entry, before its command is added to the history."""
        attributes = use.entry.attributes
        if use.live is None or not use.is_policy or not unshown.encrypts(attributes):
            return
        is_bound_to_used = use.handle is not None and use.is_bound
        bound_value = use.session.bound[1] if use.session.bound else b""
        if use.demand == policy.PASSWORD and bound_value and not is_bound_to_used:
            bound = self.sessions.live[use.entry.handle].bound
            self.tell(use, unshown.of_binding(use.place, attributes, bound))
        if use.handle is not None and use.value and not (use.takes_value or is_bound_to_used):
            self.tell(use, unshown.of_used(use.place, attributes, handle_words(use.authorized)))

    def tell(self, use: Use, words: str) -> None:
        self.told.append(f"  line {use.seen.line}: {command_words(use.code)}: {words}")

    def report(self) -> Iterator[str]:
        title = "Values of which guesses need no try"
        return section(title, self.told, f"{title}: none.")
