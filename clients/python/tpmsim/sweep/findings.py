"""What is wrong with what a client did after a refusal, against its run without one."""

from __future__ import annotations

import enum

from tpmsim.sweep.refusals import Refusal
from tpmsim.sweep.runs import Ran
from tpmsim.sweep.tpm import sessions_in

# Commands that a client sends to clean up.
FLUSH = "FlushContext"
CLEANING = FLUSH, "ContextSave"

# The check that refuses every command until TPM2_Startup.
NOT_STARTED = "G5"

# A shell adds this to the number of the signal that ended a program.
SHELL_SIGNALS = range(129, 193)


class Finding(enum.Enum):
    """What a client should not do."""

    DIES = "dies"
    HANGS = "hangs"
    SUCCEEDS = "success although refused"
    GOES_ON = "goes on as if nothing had been"
    LEAVES_SESSION = "leaves a session loaded"
    LEAVES_OBJECT = "leaves an object loaded"


def is_dead(ran: Ran) -> bool:
    """Returns whether a signal ended the client, or a program that its shell reports so."""
    return not ran.hangs and (ran.status < 0 or ran.status in SHELL_SIGNALS)


def recovers(ran: Ran, at: int, name: str) -> bool:
    """Returns whether the client sent the refused command again, with success."""
    return any(it.name == name and not it.met.is_refusal for it in ran.sent[at + 1 :])


def goes_on(ran: Ran, base: Ran, at: int) -> bool:
    """Returns whether the client sent the commands that follow in its run without a refusal, and
    one of them was accepted that does not only clean up.
    """
    after, wanted = ran.names[at + 1 :], base.names[at + 1 :]
    accepted = [it.name for it in ran.sent[at + 1 :] if not it.met.is_refusal]
    return wanted[: len(after)] == after and any(it not in CLEANING for it in accepted)


def can_clean(ran: Ran, refusal: Refusal) -> bool:
    """Returns whether the client could flush what it had loaded."""
    after = ran.sent[refusal.at :]
    return refusal.met.check != NOT_STARTED and not any(
        it.name == FLUSH and it.met.is_refusal for it in after
    )


def findings_of(ran: Ran, base: Ran, refusal: Refusal) -> list[Finding]:
    """Returns what is wrong with a run in which a command was refused."""
    if ran.trouble:
        return []
    if ran.hangs:
        return [Finding.HANGS]
    found = [Finding.DIES] if is_dead(ran) and not is_dead(base) else []
    if not recovers(ran, refusal.at, refusal.name):
        found += [Finding.SUCCEEDS] if ran.status == base.status == 0 else []
        found += [Finding.GOES_ON] if goes_on(ran, base, refusal.at) else []
    if can_clean(ran, refusal):
        found += leaves(ran, base)
    return found


def leaves(ran: Ran, base: Ran) -> list[Finding]:
    """Returns what the client leaves loaded, and does not leave in its run without a refusal."""
    sessions, before = sessions_in(ran.left), sessions_in(base.left)
    found = [Finding.LEAVES_SESSION] if sessions > before else []
    objects, before = len(ran.left) - sessions, len(base.left) - before
    return found + ([Finding.LEAVES_OBJECT] if objects > before else [])


def findings_unrefused(base: Ran) -> list[Finding]:
    """Returns what is wrong with the run without a refusal. A client may leave objects loaded for
    the next one by its own choice, but a session that is neither saved nor flushed is of no use.
    """
    return [Finding.LEAVES_SESSION] if sessions_in(base.left) else []
