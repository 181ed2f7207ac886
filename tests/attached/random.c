/* Checks that no two commands draw the same random bytes. The test replaces getrandom to count the
 * bytes that are read from the system. Their number must equal the number of bytes that the
 * commands drew. */
#include "common.h"
#include <sys/random.h>

enum { TIMES = 1000, BYTES = 16 };

static size_t asked;

ssize_t __real_getrandom(void *room, size_t size, unsigned flags);
ssize_t __wrap_getrandom(void *room, size_t size, unsigned flags);
ssize_t __wrap_getrandom(void *room, size_t size, unsigned flags) {
    asked += size;
    return __real_getrandom(room, size, flags);
}

static uint8_t drawn[4 * TIMES][BYTES];

static int compare(const void *one, const void *other) { return memcmp(one, other, BYTES); }

/* Draws random bytes, many times. */
static void draw(struct kept *kept, uint8_t room[TIMES][BYTES]) {
    uint8_t response[RESPONSE_BYTES];
    for (int i = 0; i < TIMES; i++) {
        must(accepted(kept, GET_RANDOM, sizeof GET_RANDOM, response) == 12 + BYTES, "the size");
        memcpy(room[i], response + 12, BYTES);
    }
}

int main(void) {
    struct kept_options in_memory = {.folder = NULL};
    struct reason reason;
    struct kept *kept = kept_open(&in_memory, &reason);
    must(kept != NULL, "there is no device in memory");
    start(kept);
    draw(kept, drawn);
    printf("a device in memory: asked for %zu bytes: 256 and 8 of the device, 256 and 64 of its "
           "startup, 16 of each further command: %d\n",
           asked, 256 + 8 + 256 + 64 + BYTES * (TIMES - 1));
    kept_close(kept);
    asked = 0;
    kept = opened("state");
    start(kept);
    draw(kept, drawn + TIMES);
    struct kept *other = opened("state");
    size_t before = asked;
    draw(other, drawn + 2 * TIMES);
    printf("another holder: asked for %zu bytes: 256, and 16 of each further command: %d\n",
           asked - before, 256 + BYTES * (TIMES - 1));
    must(kept_power(other, &reason), "the power cycle failed");
    start(other);
    draw(kept, drawn + 3 * TIMES);
    kept_close(other);
    kept_close(kept);
    qsort(drawn, 4 * TIMES, BYTES, compare);
    for (int i = 1; i < 4 * TIMES; i++)
        must(compare(drawn[i - 1], drawn[i]) != 0, "random bytes were given out twice");
    puts("no two draws are alike");
    return 0;
}
