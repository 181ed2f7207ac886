/* Replaces the C library's clock_gettime and getrandom. The environment variable HOST names a file.
 * The file contains the time of all clocks, as 64-bit numbers of seconds and nanoseconds, followed
 * by 256 random bytes. Each time a clock is read, the random bytes are written again to the address
 * to which getrandom wrote them first. Therefore each command of libtpms.so.0 draws exactly these
 * bytes. */
#include <fcntl.h>
#include <stdint.h>
#include <stdlib.h>
#include <string.h>
#include <sys/random.h>
#include <time.h>
#include <unistd.h>

struct host {
    int64_t seconds, nanoseconds;
    uint8_t bytes[256];
};

static uint8_t *place;

static struct host now(void) {
    struct host host;
    int file = open(getenv("HOST"), O_RDONLY | O_CLOEXEC);
    if (file < 0 || read(file, &host, sizeof host) != sizeof host) abort();
    close(file);
    return host;
}

ssize_t getrandom(void *bytes, size_t size, unsigned flags) {
    struct host host = now();
    (void)flags;
    if (size > sizeof host.bytes) abort();
    if (place == NULL) place = bytes;
    memcpy(bytes, host.bytes, size);
    return (ssize_t)size;
}

int clock_gettime(clockid_t clock, struct timespec *told) {
    struct host host = now();
    (void)clock;
    if (place != NULL) memcpy(place, host.bytes, sizeof host.bytes);
    told->tv_sec = host.seconds;
    told->tv_nsec = host.nanoseconds;
    return 0;
}
