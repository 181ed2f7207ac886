"""The caller in every program that writes a script. It contains the script and its device.

Each command is written after its description. The description names the command's outcome after a
colon, unless the command succeeds:

    tpm("By another password: AUTH_FAIL/s1").reading(FIRST, 8, b"other")

A long description is written on a line of its own:

    said = tpm("By the empty password, and by another one: AUTH_FAIL/s1")
    said.fails(*(tpm.reading(FIRST, 8, it) for it in (b"", b"other")))
"""

import functools
import inspect
import sys
from typing import Any, Callable

from tpmsim.caller import flipped, Prepared, Session, storage_key
from tpmsim.model.machine import Outcome
from tpmsim.standard import frames, RH_OWNER
from tests.common.script import MADE_THIS, OUTCOME, Script, SUCCESS, told_head, WROTE_THIS
from tests.common.script_caller import ScriptCaller


def wrong_in(prepared: Prepared, *places: int) -> Prepared:
    """Returns the command with one bit changed in the HMAC of each of these entries. An empty HMAC
    is replaced by a zero byte.
    """
    for place in places or (1,):
        hmac = prepared.entries[place - 1].hmac
        prepared = prepared.but_entry(place, hmac=flipped(hmac) if hmac else b"\0")
    return prepared


def others_in(prepared: Prepared, *places: int) -> Prepared:
    """Returns the command with a wrong HMAC in each of these entries."""
    for place in places:
        prepared = prepared.but_entry(place, hmac=b"wrong")
    return prepared


class Teller(ScriptCaller):
    """A caller with the script of a program. `name` is the name of the program's module. `told` is
    its docstring, which begins with the script's name, a full stop, and the subject. If `starts` is
    true, the script begins with TPM2_Startup(CLEAR). If `tries` is true, wrong authorization values
    never cause a lockout. tests/common/made.py writes the script.
    """

    ending = MADE_THIS

    def __init__(self, name: str, told: str, tries: bool = False, starts: bool = True) -> None:
        if name == "__main__":
            sys.exit("tests/common/made.py runs the program of a script")
        super().__init__(Script(name, told_head(told), self.ending))
        if starts:
            self.startup()
        if tries:
            self.script.allow_tries()

    def __call__(self, words: str) -> "Said":
        return Said(self, words)

    def comes_to(self, words: str, prepared: Prepared) -> bytes:
        """Sends a command, and expects the outcome that `words` names. Returns the decrypted
        parameters of the response, if any. If an entry of the command is for a session, the script
        first sets new random bytes.
        """
        named = [it[1] for it in OUTCOME.finditer(words) if it[1] in frames.CODES]
        if not named:
            return self.does(
                "" if words == SUCCESS else words.removesuffix(f": {SUCCESS}"), prepared
            )
        self.fails(words, prepared)
        return b""

    # Steps that many scripts need.

    def restarts(self, session: Session) -> None:
        self.does("TPM2_PolicyRestart", self.restart(session))

    def unlocks(self) -> None:
        self.does("TPM2_DictionaryAttackLockReset", self.lock_reset())

    def undefines(self, *indices: int) -> None:
        for index in indices:
            self.does(
                "The index is undefined" if index == indices[0] else "", self.undefining(index)
            )

    # The events of the script.

    @property
    def last(self) -> Outcome:
        return self.script.last

    def startup(self) -> None:
        self.script.startup()

    def chapter(self, text: str) -> None:
        self.script.chapter(text)

    def raw(self, words: str, *buffers: bytes, fresh: bool = False) -> bytes:
        """Sends buffers, and expects the outcome that `words` names for each of them. Returns the
        last response.
        """
        return self.script.command(words, *buffers, fresh=fresh)

    def locality_is(self, locality: int) -> None:
        self.script.locality_is(locality)

    def power(self) -> None:
        self.script.power()

    def power_cycle(self) -> None:
        """Power-cycles the device, and sends TPM2_Startup(CLEAR)."""
        self.power()
        self.startup()

    def wait(self, milliseconds: int) -> None:
        self.script.wait(milliseconds)


class Example(Teller):
    """A caller for a script in examples/. It does not send TPM2_Startup by itself."""

    ending = WROTE_THIS

    def __init__(self, name: str, told: str) -> None:
        super().__init__(name, told, starts=False)

    def storage_root(self, what: str) -> int:
        return self.create_primary(what, RH_OWNER, storage_key())

    def measure(self, *measurements: tuple[int, str, bytes]) -> None:
        """Extends PCRs with measurements. Each has a PCR, a description and the data."""
        for pcr, what, data in measurements:
            self.accepted(what, self.event(data, b"", pcr=pcr))


class Said:
    """A description for a method of the caller. A method that takes a description gets this one. If
    the method prepares a command instead, the command is sent at once with this description.
    """

    def __init__(self, tpm: Teller, words: str) -> None:
        self.tpm, self.words = tpm, words

    def __getattr__(self, name: str) -> Callable[..., Any]:
        method = getattr(self.tpm, name)
        if next(iter(inspect.signature(method).parameters), "") in ("words", "what"):
            return functools.partial(method, self.words)

        def sends(*those: Any, **choices: Any) -> bytes:
            return self.tpm.comes_to(self.words, method(*those, **choices))

        return sends
