/* Opens volatile states of older libraries, in which one byte of the journal is zero. The library that opens the
 * journal is replaced by one that accepts any bytes, so that nothing but hosts/libtpms/older.c is tested. */
#include "older.h"

#include <stdio.h>
#include <stdlib.h>
#include <string.h>

static const char STATE[] = "# tpmsim journal 1 00000000000003e8\n"
                            "wait 7\nloc 4\ncmd \nloc 3\ncmd \nwait 20\nloc 4\ncmd \n# the end\n";
enum { BYTES = sizeof STATE - 1, THE_END_BYTES = 10 };

/* A function that sanitizers check, unlike that of the C library. */
void explicit_bzero(void *block, size_t size) { memset(block, 0, size); }

uint8_t tpmsim_journal_open(tpmsim *device, const uint8_t *text, size_t size, size_t *taken) {
    (void)device;
    (void)text;
    *taken = size;
    return TPMSIM_DONE;
}

/* Opens the state, in a block of exactly its size, in which the byte at an offset is zero. */
static void open_with_zero_at(size_t at, struct moment *moment) {
    tpmsim device = {0};
    uint8_t *state = malloc(BYTES);
    if (state == NULL) exit(1);
    memcpy(state, STATE, BYTES);
    if (at < BYTES) state[at] = 0;
    const char *fault = open_older_state(&device, state, BYTES, moment);
    if (fault != NULL) printf("refused: %s\n", fault);
    free(state);
}

int main(void) {
    struct moment moment;
    open_with_zero_at(BYTES, &moment);
    printf("without a zero: %llu ms, launched %d\n", (unsigned long long)moment.time, moment.was_launched);
    for (size_t at = 0; at < BYTES - THE_END_BYTES; at++) open_with_zero_at(at, &moment);
    printf("with a zero at each of %d offsets: nothing else is read or written\n", BYTES - THE_END_BYTES);
    return 0;
}
