/* The time of a device in memory, in milliseconds since 1970: the host's time when the simulator
   started, plus the time that has passed since then on a clock that never goes back. If time is
   stopped, nothing is added. If the run must also be reproducible, the time is 0, because contexts
   depend on it. */
#ifndef CLOCK_H
#define CLOCK_H
#include <stdbool.h>
#include <stdint.h>

struct clock {
    uint64_t began_ms;
    uint64_t began_passed_ms;
    bool is_still;
};

/* Returns false if the host's clocks cannot be read. */
bool clock_begin(struct clock *clock, bool is_still, bool repeats);

uint64_t clock_now(const struct clock *clock);

#endif
