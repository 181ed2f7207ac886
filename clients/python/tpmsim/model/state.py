"""Startup and shutdown, clocks and counts, and TPM2_Clear (TPM 2.0 Library, Part 1, sections 12, 14
and 36; Part 3, sections 9, 10, 24 and 29).
"""

import enum

from tpmsim.model import nv_commands
from tpmsim.model.general import Answer, Refusal
from tpmsim.model.parameters import choice, Held, integer, Request, takes
from tpmsim.standard import number, nv, RH_ENDORSEMENT, RH_LOCKOUT, RH_NULL, RH_OWNER, RH_PLATFORM
from tpmsim.standard import sized

CLEAR, STATE = 0, 1

# The number of PCRs that TPM2_Shutdown(STATE) saves.
SAVED_PCRS = 16

# The largest time and the largest count, and the largest time to which TPM2_ClockSet sets Clock.
LAST_TIME, LAST_COUNT = 2**64 - 1, 2**32 - 1
LAST_SET_TIME = 0xFFFF_0000_0000_0000

# The values of TPM2_ClockRateAdjust, as unsigned bytes: -3 to 3.
ADJUSTMENTS = [it % 256 for it in range(-3, 4)]

TESTS_PASSED = number(0, 4)

SECRET_BYTES = 32


class Saved(enum.IntEnum):
    NONE = 0
    CLEAR = 1
    STATE = 2


def secrets(random: bytes, count: int) -> list[bytes]:
    return [random[at : at + SECRET_BYTES] for at in range(0, SECRET_BYTES * count, SECRET_BYTES)]


class Commands(Held):
    """The commands for a device with `saved` and `saved_banks`, times, and counts of startups."""

    def tick(self, elapsed: int) -> None:
        self.time = min(self.time + elapsed, LAST_TIME)
        self.clock = min(self.clock + elapsed, LAST_TIME)
        self.lockout.tick(elapsed)

    @takes()
    def read_clock(self, request: Request) -> Answer:
        times = number(self.time, 8) + number(self.clock, 8)
        counts = number(self.reset_count, 4) + number(self.restart_count, 4)
        # The clock never goes back, so its value is always safe.
        return Answer(times + counts + b"\x01")

    @takes(integer(8))
    def clock_set(self, request: Request, clock: int) -> Answer:
        if not self.clock <= clock <= LAST_SET_TIME:
            raise Refusal("VALUE/p1", "A1", clock=self.clock, most=LAST_SET_TIME)
        self.clock = clock
        return Answer()

    @takes(integer(1))
    def clock_rate_adjust(self, request: Request, rate: int) -> Answer:
        # The host's clock determines the rate.
        if rate not in ADJUSTMENTS:
            raise Refusal("VALUE/p1", "A1", rate=rate)
        return Answer()

    # A startup is a TPM Reset; or, from saved state, a TPM Restart or a TPM Resume.

    @takes(choice(2, (CLEAR, STATE)))
    def startup(self, request: Request, kind: int) -> Answer:
        was_saved = self.saved
        if kind == STATE and was_saved != Saved.STATE:
            raise Refusal("VALUE/p1", "A1", case=was_saved.name)

        self.started, self.saved = True, Saved.NONE
        self.update_counter = 0
        if kind == STATE:
            self.restore_pcrs()
        else:
            self.auth_values.pop(RH_PLATFORM, None)
            nv_commands.start_up(self.indices)
        if was_saved == Saved.STATE:
            self.restart_count = min(self.restart_count + 1, LAST_COUNT)
            return Answer()
        self.reset(request.random)
        return Answer(drawn=2 * SECRET_BYTES)

    def restore_pcrs(self) -> None:
        for algorithm, values in self.saved_banks.items():
            self.banks[algorithm][:SAVED_PCRS] = values

    def reset(self, random: bytes) -> None:
        self.reset_count = min(self.reset_count + 1, LAST_COUNT)
        self.restart_count = 0
        self.seeds[RH_NULL], self.proofs[RH_NULL] = secrets(random, 2)
        # If lockoutRecovery is 0, lockoutAuth stays disabled until a reset.
        if not self.lockout.lockout_recovery:
            self.lockout.is_closed = False

    @takes(choice(2, (CLEAR, STATE)))
    def shutdown(self, request: Request, kind: int) -> Answer:
        self.saved = Saved.STATE if kind == STATE else Saved.CLEAR
        self.saved_banks = {alg: bank[:SAVED_PCRS] for alg, bank in self.banks.items()}
        return Answer()

    @takes(choice(1, (0, 1)))
    def self_test(self, request: Request, full: int) -> Answer:
        return Answer()

    @takes()
    def get_test_result(self, request: Request) -> Answer:
        return Answer(sized(b"") + TESTS_PASSED)

    # TPM2_Clear removes what belongs to the owner of the computer.

    @takes()
    def clear(self, request: Request) -> Answer:
        if self.disable_clear:
            raise Refusal("DISABLED", "A1")
        self.check_counter(1)

        drawn = secrets(request.random, 3)
        self.seeds[RH_OWNER], self.proofs[RH_OWNER], self.proofs[RH_ENDORSEMENT] = drawn
        owners = RH_OWNER, RH_ENDORSEMENT
        kept = nv.Attribute.PLATFORMCREATE
        self.objects = {at: it for at, it in self.objects.items() if it.hierarchy not in owners}
        self.indices = {at: it for at, it in self.indices.items() if it.public.has(kept)}
        for hierarchy in (*owners, RH_LOCKOUT):
            self.auth_values.pop(hierarchy, None)
        self.lockout.is_closed, self.lockout.failed_tries = False, 0
        self.clock = self.reset_count = self.restart_count = 0
        self.update_counter += 1
        return Answer(drawn=3 * SECRET_BYTES)

    @takes(choice(1, (0, 1)))
    def clear_control(self, request: Request, disables: int) -> Answer:
        # Only the platform may enable TPM2_Clear again.
        if request.handles[0] == RH_LOCKOUT and not disables:
            raise Refusal("AUTH_FAIL", "A1")
        self.disable_clear = bool(disables)
        return Answer()
