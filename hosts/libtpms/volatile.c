/* A state text and a tail of 41 bytes: the time (8), whether there was a launch (1), and a SHA-256
   digest (32). The digest covers these fields and the last 32 bytes of the state text, which are
   the digest of the bytes before them. */
#include "volatile.h"

#include "digests.h"
#include "foreign.h"
#include "older.h"
#include "report.h"

#include <stdlib.h>
#include <string.h>

enum { TIME_BYTES = 8, LAUNCH_AT = TIME_BYTES, DIGEST_AT, TAIL_BYTES = DIGEST_AT + SHA256_BYTES };

/* Writes the tail after a text of at least 32 bytes. */
static void write_tail(uint8_t *tail, const struct moment *moment) {
    struct digests digests;
    uint8_t sha1[SHA1_BYTES];
    for (int i = 0; i < TIME_BYTES; i++) tail[i] = (uint8_t)(moment->time >> (56 - 8 * i));
    tail[LAUNCH_AT] = moment->was_launched;
    begin_digests(&digests);
    add_to_digests(&digests, tail - SHA256_BYTES, SHA256_BYTES + DIGEST_AT);
    end_digests(&digests, sha1, tail + DIGEST_AT);
}

/* Reads the tail at the end of a state. Returns false if write_tail would have written other bytes. */
static bool read_tail(const struct state *state, struct moment *moment) {
    uint8_t end[SHA256_BYTES + TAIL_BYTES], written[sizeof end], *tail = end + SHA256_BYTES;
    if (state->size < sizeof end) return false;
    memcpy(end, state->bytes + state->size - sizeof end, sizeof end);
    *moment = (struct moment){.was_launched = tail[LAUNCH_AT] != 0};
    for (int i = 0; i < TIME_BYTES; i++) moment->time = moment->time << 8 | tail[i];
    memcpy(written, end, SHA256_BYTES);
    write_tail(written + SHA256_BYTES, moment);
    return memcmp(written, end, sizeof end) == 0;
}

bool make_volatile_state(tpmsim *device, const struct moment *moment, struct state *state) {
    *state = (struct state){.bytes = calloc(1, TPMSIM_STATE_SIZE + TAIL_BYTES)};
    if (state->bytes == NULL) {
        report("there is no memory for a volatile state");
        return false;
    }
    size_t size = tpmsim_snapshot(device, state->bytes, TPMSIM_STATE_SIZE);
    write_tail(state->bytes + size, moment);
    state->size = size + TAIL_BYTES;
    return true;
}

/* Opens the device from a volatile state. Returns NULL, or the reason why the state is refused. */
static const char *fault_of(tpmsim *device, const struct state *state, struct moment *moment) {
    size_t size = state->size < TAIL_BYTES ? 0 : state->size - TAIL_BYTES;
    if (is_older_state(state->bytes, state->size))
        return open_older_state(device, state->bytes, state->size, moment);
    uint8_t told = tpmsim_restore(device, state->bytes, size);
    if (told != TPMSIM_DONE) return words_of_state(state, told);
    return read_tail(state, moment) ? NULL : "its last 41 bytes are damaged";
}

bool open_volatile_state(tpmsim *device, const struct state *state, struct moment *moment) {
    const char *fault = fault_of(device, state, moment);
    if (fault != NULL) report("the volatile state is refused: %s", fault);
    return fault == NULL;
}
