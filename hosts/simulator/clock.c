#define _GNU_SOURCE
#include "clock.h"
#include "host.h"
#include <time.h>

/* Reads the milliseconds of a clock that never goes back. */
static bool read_passed(uint64_t *passed_ms) {
    struct timespec now;
    if (clock_gettime(CLOCK_MONOTONIC, &now) != 0) return false;
    *passed_ms = (uint64_t)now.tv_sec * 1000 + (uint64_t)now.tv_nsec / 1000000;
    return true;
}

bool clock_begin(struct clock *clock, bool is_still, bool repeats) {
    *clock = (struct clock){.is_still = is_still};
    if (is_still && repeats) return true;
    return host_now(&clock->began_ms) && read_passed(&clock->began_passed_ms);
}

uint64_t clock_now(const struct clock *clock) {
    uint64_t passed_ms;
    if (clock->is_still || !read_passed(&passed_ms)) return clock->began_ms;
    return clock->began_ms + (passed_ms - clock->began_passed_ms);
}
