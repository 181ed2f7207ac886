/* Prints the times that TPM2_ReadClock returns while the host's clock runs, stops, goes back and
 * jumps. The test replaces clock_gettime to simulate the host's clock. The time of a device is the
 * number of milliseconds since its power came on. */
#include "common.h"
#include <time.h>

static const char FOLDER[] = "state";

/* The time of the host's clock, in milliseconds since 1970. */
static int64_t host_ms = 1000000000000;

int __wrap_clock_gettime(clockid_t clock, struct timespec *now);
int __wrap_clock_gettime(clockid_t clock, struct timespec *now) {
    must(clock == CLOCK_REALTIME, "another clock is read");
    now->tv_sec = host_ms / 1000;
    now->tv_nsec = host_ms % 1000 * 1000000 + 999999;
    return 0;
}

/* Returns the time of the device, which is the first number in the response to TPM2_ReadClock. */
static unsigned long long time_of(struct kept *kept) {
    uint8_t response[RESPONSE_BYTES];
    unsigned long long time = 0;
    accepted(kept, READ_CLOCK, sizeof READ_CLOCK, response);
    for (int i = 10; i < 18; i++) time = time << 8 | response[i];
    return time;
}

/* Moves the host's clock, and then prints the device's time. */
static void moved(struct kept *kept, const char *label, int64_t milliseconds) {
    host_ms += milliseconds;
    printf("%s: %llu\n", label, time_of(kept));
}

int main(void) {
    struct kept *kept = opened(FOLDER);
    start(kept);
    moved(kept, "at once", 0);
    moved(kept, "1,500 ms on", 1500);
    moved(kept, "it stands", 0);
    moved(kept, "1,000 ms back", -1000);
    moved(kept, "400 ms on, so 600 behind", 400);
    moved(kept, "605 ms on, so 5 ahead", 605);
    kept_close(kept);
    kept = opened(FOLDER);
    moved(kept, "opened again, 95 ms on", 95);
    struct kept *other = opened(FOLDER);
    moved(other, "another holder, 100 ms on", 100);
    moved(kept, "the first one, 10 ms back", -10);
    moved(other, "the other one, 20 ms on", 20);
    moved(kept, "50 days on: at most 4,294,967,295 ms of them pass at once", 4320000000);
    moved(kept, "1 ms on: the rest of them passes", 1);
    kept_close(other);
    struct reason reason;
    host_ms -= 10000000000;
    must(kept_power(kept, &reason), "the power cycle failed");
    start(kept);
    moved(kept, "a power cycle long before that, 7 ms on", 7);
    uint8_t response[RESPONSE_BYTES];
    tpmsim_answered answered;
    host_ms = -5000;
    must(!kept_execute(kept, READ_CLOCK, sizeof READ_CLOCK, 0, response, &answered, &reason),
         "a clock before 1970 is taken");
    printf("before 1970: %s\n", reason.text);
    host_ms = 999999999999;
    moved(kept, "65 days behind the power cycle: as many of them pass at once", 0);
    kept_close(kept);
    return 0;
}
