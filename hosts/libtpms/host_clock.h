/* The host's clock, in milliseconds since 1970, which never goes back while a device is on. */
#ifndef HOST_CLOCK_H
#define HOST_CLOCK_H

#include <stdint.h>

/* Returns the host's time of day. */
uint64_t time_of_day(void);

/* Starts the clock at this time. */
void begin_host_clock(uint64_t begun);

/* Returns the start time plus the elapsed time, which includes time during which the host slept. */
/*@ assigns \nothing; */
uint64_t host_clock(void);

#endif
