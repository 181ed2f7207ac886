/* The clock of a device while its power is on. Changes of the host's time of day do not affect
 * it. */
#include "host_clock.h"

#include <time.h>

static uint64_t begun_at, stopwatch_then;

/* Returns the time of a system clock in milliseconds; 0 if the clock cannot be read, so that no
 * time passes. */
static uint64_t milliseconds(clockid_t clock) {
    struct timespec told;
    if (clock_gettime(clock, &told) != 0 || told.tv_sec < 0) return 0;
    return (uint64_t)told.tv_sec * 1000 + (uint64_t)told.tv_nsec / 1000000;
}

uint64_t time_of_day(void) { return milliseconds(CLOCK_REALTIME); }

void begin_host_clock(uint64_t begun) {
    begun_at = begun;
    stopwatch_then = milliseconds(CLOCK_BOOTTIME);
}

uint64_t host_clock(void) { return begun_at + (milliseconds(CLOCK_BOOTTIME) - stopwatch_then); }
