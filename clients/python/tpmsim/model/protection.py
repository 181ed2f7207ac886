"""Dictionary attack protection: failed tries are counted and forgiven (TPM 2.0 Library, Part 1,
section 19.8). One failed try disables lockoutAuth, the value of TPM_RH_LOCKOUT.
"""

from dataclasses import dataclass

from tpmsim.model.general import Answer
from tpmsim.model.parameters import Held, integer, Request, takes

# What a failed try counts against: all protected objects and NV indices together, or lockoutAuth.
TRIES, LOCKOUT_AUTH = "tries", "lockoutAuth"

MILLISECONDS = 1000


@dataclass
class Lockout:
    """`failed_tries` counts the failed tries that are not yet forgiven. `recovery_time` and
    `lockout_recovery` are in seconds. The other times are in milliseconds: `forgiving_time` since a
    try was last counted or forgiven, and `closed_time` since lockoutAuth was disabled.
    """

    failed_tries: int = 0
    max_tries: int = 3
    recovery_time: int = 1000
    lockout_recovery: int = 1000
    is_closed: bool = False
    forgiving_time: int = 0
    closed_time: int = 0

    def power_cycle(self) -> None:
        """Restarts the two times, and changes nothing else."""
        self.forgiving_time = self.closed_time = 0

    def tick(self, elapsed: int) -> None:
        self.forgive(elapsed)
        self.closed_time += elapsed
        recovery = MILLISECONDS * self.lockout_recovery
        if recovery and self.closed_time >= recovery:
            self.is_closed = False
        if not self.is_closed or not recovery:
            self.closed_time = 0

    def forgive(self, elapsed: int) -> None:
        """Forgives a failed try for each whole recovery time, and carries over the remaining
        time.
        """
        period = MILLISECONDS * self.recovery_time
        if not self.failed_tries or not period:
            self.forgiving_time = 0
            return
        forgiven, self.forgiving_time = divmod(self.forgiving_time + elapsed, period)
        self.failed_tries = max(0, self.failed_tries - forgiven)
        if not self.failed_tries:
            self.forgiving_time = 0

    def is_locked(self) -> bool:
        """Whether protected values are refused without a check. With recovery_time 0 the protection
        is off; otherwise max_tries 0 locks at once.
        """
        return self.recovery_time != 0 and self.failed_tries >= self.max_tries

    def refuses(self, touched: str | None) -> bool:
        if touched == TRIES:
            return self.is_locked()
        return touched == LOCKOUT_AUTH and self.is_closed

    def count(self, touched: str | None) -> None:
        """Counts a failed try: a value was compared and was wrong."""
        if touched == TRIES and self.recovery_time:
            self.failed_tries += 1
            self.forgiving_time = 0
        if touched == LOCKOUT_AUTH:
            self.is_closed = True
            self.closed_time = 0


class Commands(Held):
    @takes()
    def dictionary_attack_lock_reset(self, request: Request) -> Answer:
        self.lockout.failed_tries = 0
        return Answer()

    @takes(integer(4), integer(4), integer(4))
    def dictionary_attack_parameters(
        self, request: Request, max_tries: int, recovery_time: int, lockout_recovery: int
    ) -> Answer:
        lockout = self.lockout
        lockout.max_tries, lockout.recovery_time = max_tries, recovery_time
        lockout.lockout_recovery = lockout_recovery
        lockout.forgiving_time = lockout.closed_time = 0
        return Answer()
