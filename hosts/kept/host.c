#define _GNU_SOURCE
#include "host.h"
#include <errno.h>
#include <sys/random.h>
#include <time.h>

bool host_now(uint64_t *now_ms) {
    struct timespec now;
    if (clock_gettime(CLOCK_REALTIME, &now) != 0 || now.tv_sec < 0) return false;
    *now_ms = (uint64_t)now.tv_sec * 1000 + (uint64_t)now.tv_nsec / 1000000;
    return true;
}

/* The system fills a buffer of this size at once. If a signal prevents that, fills it again. */
bool host_random(uint8_t *room, size_t size) {
    size_t filled = 0;
    /*@ loop invariant filled <= size && (filled == size ==> random_from_system(room, size));
      @ loop assigns filled, __fc_errno, room[0 .. size - 1];
      @*/
    while (filled != size) {
        ssize_t got = getrandom(room, size, 0);
        if (got == 0 || (got < 0 && errno != EINTR)) return false;
        filled = got < 0 ? 0 : (size_t)got;
    }
    return true;
}
