/* A state of libtpms begins with a version of two bytes and a magic number. */
#include "foreign.h"

#include "report.h"

#include <string.h>

enum { MAGIC_AT = 2, MAGIC_BYTES = 4 };

static const uint8_t PERMANENT_MAGIC[MAGIC_BYTES] = {0xab, 0x36, 0x47, 0x23};
static const uint8_t VOLATILE_MAGIC[MAGIC_BYTES] = {0x45, 0x63, 0x78, 0x89};

static bool has_magic(const struct state *state, const uint8_t magic[MAGIC_BYTES]) {
    return state->size >= MAGIC_AT + MAGIC_BYTES &&
           memcmp(state->bytes + MAGIC_AT, magic, MAGIC_BYTES) == 0;
}

const char *words_of_state(const struct state *state, uint8_t told) {
    if (has_magic(state, PERMANENT_MAGIC) || has_magic(state, VOLATILE_MAGIC))
        return "swtpm's own libtpms wrote it: start swtpm for this state, and tpmsim-swtpm with another folder";
    return words_of_told(told);
}
