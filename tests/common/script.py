"""A script that a program makes: NAME.tpm, and NAME.out and NAME.trace with the responses and the
trace of the Python device.
"""

import hashlib
import pathlib
import re
import textwrap

from tpmsim.device.base import line, line_in_bytes
from tpmsim.model.machine import Model, Outcome
from tpmsim.standard import CC, frames, Profile
from tests.common.made import COMPLETE
from tests.common.outputs import Played, POWER, RANDOM_BYTES, repeated
from tests.common.outputs import write_responses, write_trace

COLUMNS = 100

# The size of each command's `entropy` line, in bytes. It is chosen so that all nonces of a command
# differ.
SEED_BYTES = 7

# The two possible endings of a script's first comment, after the name of the script's program. The
# second one is that of the examples, which dist/tpmsim.html contains.
MADE_THIS, WROTE_THIS = " made this.", ", next to it, wrote this."

# The outcome in a description. It comes after a colon, and before a comma or the end.
SUCCESS = "SUCCESS"
OUTCOME = re.compile(r"(?:^|: )([A-Z][A-Z0-9_]+)(/[hps][1-9])?(?=,|$)")


def told_outcome(words: str) -> tuple[str, str, str]:
    """Returns the outcome in a description, with the words before it and after it. Raises
    ValueError unless there is exactly one outcome.
    """
    named = [it for it in OUTCOME.finditer(words) if it[1] == SUCCESS or it[1] in frames.CODES]
    if len(named) != 1:
        raise ValueError(f"these words name {len(named)} outcomes: {words}")
    (found,) = named
    return words[: found.start()], found[1] + (found[2] or ""), words[found.end() :]


def told_head(told: str) -> str:
    """Returns the first paragraph of a program's docstring, without the script's name."""
    return " ".join(told.split("\n\n")[0].partition(".tpm. ")[2].split())


class Script:
    """The lines of a script, and a device that executes each line as it is written. The script has
    the name of its program. `module` is the name of the program's module. If the program is in the
    folder of these scripts, the device is of the complete profile.
    """

    def __init__(self, module: str, head: str, ending: str = MADE_THIS) -> None:
        self.name = module.rpartition(".")[2]
        self.lines: list[str] = []
        self.played: list[Played] = []
        is_complete = COMPLETE in module.split(".")
        self.device = Model(profile=Profile.COMPLETE if is_complete else Profile.SYMMETRIC)
        self.locality, self.random = 0, bytes(RANDOM_BYTES)
        self.seeds, self.elapsed, self.pause = 0, 0, 0
        self.write_comment(f"{head} {self.name}.py{ending}")

    @property
    def last(self) -> Outcome:
        """Returns the outcome of the last command."""
        return next(it.outcome for it in reversed(self.played) if it.outcome)

    def write_comment(self, text: str) -> None:
        self.lines += textwrap.wrap(
            text, COLUMNS, initial_indent="# ", subsequent_indent="# ", break_on_hyphens=False
        )

    def chapter(self, text: str) -> None:
        self.lines.append("")
        self.write_comment(text)

    def locality_is(self, locality: int) -> None:
        self.locality = locality
        self.lines += ["", f"loc {locality}"]

    def power(self) -> None:
        self.device.power_cycle()
        self.played.append(POWER)
        self.lines += ["", "power"]

    def wait(self, milliseconds: int) -> None:
        """Lets this many milliseconds pass before the next command."""
        if self.lines[-1].startswith(("cmd", "do ")):
            self.lines.append("")
        self.let_pass(milliseconds)

    def let_pass(self, milliseconds: int) -> None:
        self.elapsed += milliseconds
        self.lines.append(f"wait {milliseconds}")

    def entropy(self, seed: bytes) -> None:
        self.random = repeated(seed)
        self.lines.append(f"entropy {seed.hex()}")

    def fresh(self) -> None:
        """Adds an `entropy` line with new random bytes."""
        self.seeds += 1
        self.entropy(hashlib.sha256(b"entropy %d" % self.seeds).digest()[:SEED_BYTES])

    def command(
        self, words: str, *buffers: bytes, fresh: bool = False, as_bytes: bool = False
    ) -> bytes:
        """Adds commands, which must all have the outcome that `words` names after a colon. Returns
        the last response. `words` becomes a comment. If `words` consists only of the outcome, the
        commands are added after the last comment. Raises ValueError if a command has another
        outcome.
        """
        before, outcome, after = told_outcome(words)
        if before:
            number = "" if outcome == SUCCESS else f" ({frames.code_of(outcome):03X})"
            self.chapter(f"{before}: {outcome}{number}{after}.")
        if fresh:
            self.fresh()
        for buffer in buffers:
            if self.pause:
                self.let_pass(self.pause)
            self.lines.append(
                line_in_bytes(buffer) if as_bytes else line(buffer, self.device.profile)
            )
            answered = self.device.execute(buffer, self.locality, self.random, self.elapsed)
            if (answered.refused or SUCCESS) != outcome:
                raise ValueError(f"{words}: it is {answered.refused or SUCCESS}")
            self.played.append(Played(answered, self.locality, self.elapsed))
            self.elapsed = 0
        return self.last.response

    def startup(self) -> bytes:
        startup = frames.command(CC.Startup, frames.number(0, 2))
        return self.command("TPM2_Startup(CLEAR): SUCCESS", startup)

    def allow_tries(self) -> None:
        """Sets the dictionary attack parameters, for scripts that send wrong authorization values
        but do not test that protection. Otherwise the device would refuse even right values after
        the third wrong one.
        """
        self.command(
            "TPM2_DictionaryAttackParameters: maxTries and recoveryTime are 1,000, lockoutRecovery "
            "is 1, so that the wrong tries of this script do not lock anything: SUCCESS",
            frames.on_handle(
                CC.DictionaryAttackParameters,
                frames.RH_LOCKOUT,
                frames.attack_parameters(1000, 1000, 1),
            ),
        )

    def wait_each_time(self) -> None:
        """Lets a second pass before each later command, because a wrong value for lockoutAuth
        disables lockoutAuth until lockoutRecovery has passed. Call allow_tries first, because it
        sets lockoutRecovery to a second.
        """
        self.chapter(
            "A wrong try at lockoutAuth closes it for lockoutRecovery. So a second passes before "
            "each command from here on."
        )
        self.pause = 1000

    def write_in(self, folder: pathlib.Path) -> None:
        """Writes the script, its responses and its trace to a folder."""
        path = folder / f"{self.name}.tpm"
        path.write_text("\n".join(self.lines) + "\n", "ascii")
        write_responses(path, self.played)
        write_trace(path, self.played)
