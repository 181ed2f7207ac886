/* Fetches random bytes to replace those that were drawn. */
#include "randomness.h"

#include "host.h"
#include "report.h"

#include <errno.h>
#include <string.h>

static uint8_t bytes[RANDOM_BYTES];
/* The number of bytes at the beginning that are not fresh. */
static size_t stale = RANDOM_BYTES;

const uint8_t *random_bytes(void) {
    if (!host_random(bytes, stale)) {
        report("the system gives no random bytes: %s", strerror(errno));
        return NULL;
    }
    stale = 0;
    return bytes;
}

void random_bytes_were_drawn(size_t count) { stale = count < RANDOM_BYTES ? count : RANDOM_BYTES; }

void forget_random_bytes(void) {
    explicit_bzero(bytes, sizeof bytes);
    stale = RANDOM_BYTES;
}
