/* Replaces the C library's clock_gettime. Every clock returns the time that is stored in a file, as
 * seconds and nanoseconds. The environment variable CLOCK names the file. */
#include <stdio.h>
#include <stdlib.h>
#include <time.h>

int clock_gettime(clockid_t clock, struct timespec *now) {
    long seconds, nanoseconds;
    FILE *file = fopen(getenv("CLOCK"), "r");
    if (!file || fscanf(file, "%ld %ld", &seconds, &nanoseconds) != 2) abort();
    fclose(file);
    (void)clock;
    now->tv_sec = seconds;
    now->tv_nsec = nanoseconds;
    return 0;
}
