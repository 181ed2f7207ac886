/* Sets, stores, makes and checks states. */
#include "states.h"

#include "device.h"
#include "launch.h"
#include "permanent.h"
#include "report.h"
#include "secret.h"
#include "volatile.h"

#include <libtpms/tpm_error.h>
#include <libtpms/tpm_nvfilename.h>
#include <stdlib.h>
#include <string.h>

enum { TYPES = 3 };

static const enum TPMLIB_StateType types[TYPES] = {TPMLIB_STATE_PERMANENT, TPMLIB_STATE_VOLATILE,
                                                   TPMLIB_STATE_SAVE_STATE};
static const char *const names[TYPES] = {TPM_PERMANENT_ALL_NAME, TPM_VOLATILESTATE_NAME,
                                         TPM_SAVESTATE_NAME};
static struct state set[TYPES];

/* Returns the index of a type, or TYPES if there is no such type. */
static size_t place_of(enum TPMLIB_StateType type) {
    size_t place = 0;
    while (place < TYPES && types[place] != type) place++;
    return place;
}

void free_state(struct state *state) {
    secret_free(state->bytes, state->size);
    *state = (struct state){0};
}

void forget_states(void) {
    for (size_t i = 0; i < TYPES; i++) free_state(&set[i]);
}

bool is_set(enum TPMLIB_StateType type) {
    size_t place = place_of(type);
    return place < TYPES && set[place].bytes != NULL;
}

static bool copy(const uint8_t *bytes, size_t size, uint8_t **made) {
    *made = calloc(1, size + 1);
    if (*made == NULL) {
        report("there is no memory for a state");
        return false;
    }
    if (size > 0) memcpy(*made, bytes, size);
    return true;
}

enum kept find_state(enum TPMLIB_StateType type, struct state *state) {
    size_t place = place_of(type);
    *state = (struct state){0};
    if (place == TYPES) return NOT_KEPT;
    if (!is_set(type)) return load_state(names[place], &state->bytes, &state->size);
    state->size = set[place].size;
    return copy(set[place].bytes, set[place].size, &state->bytes) ? KEPT : NOT_READ;
}

/* Returns whether a device can be opened from a state. */
static bool is_state(enum TPMLIB_StateType type, const struct state *state) {
    tpmsim scratch = {0};
    struct moment moment;
    bool is = type == TPMLIB_STATE_PERMANENT ? open_permanent_state(&scratch, state)
                                             : open_volatile_state(&scratch, state, &moment);
    tpmsim_free(&scratch);
    return is;
}

/* A TPM 2.0 has no state of the third type, TPMLIB_STATE_SAVE_STATE. */
static TPM_RESULT look_at(enum TPMLIB_StateType type, const struct state *state) {
    if (type == TPMLIB_STATE_SAVE_STATE) {
        report("there is no TPM 1.2, and no state that it saved");
        return TPM_BAD_TYPE;
    }
    return is_state(type, state) ? TPM_SUCCESS : TPM_FAIL;
}

TPM_RESULT TPMLIB_SetState(enum TPMLIB_StateType st, const unsigned char *buffer, uint32_t buflen) {
    size_t place = place_of(st);
    if (place == TYPES) return TPM_BAD_TYPE;
    if (device_is_on()) {
        report("no state is set while the power is on");
        return TPM_INVALID_POSTINIT;
    }
    free_state(&set[place]);
    if (buffer == NULL) return TPM_SUCCESS;
    struct state state = {.size = buflen};
    if (!copy(buffer, buflen, &state.bytes)) return TPM_SIZE;
    TPM_RESULT result = look_at(st, &state);
    if (result == TPM_SUCCESS) {
        set[place] = state;
    } else {
        free_state(&state);
        forget_states();
    }
    return result;
}

/* Makes the volatile state of the running device. If the last command has not been written, swtpm's
   user may already have an older permanent state. Then there is no volatile state, even if the
   command is written now. */
static bool make_present_volatile_state(struct state *state) {
    struct moment moment = {.time = time_of_device(), .was_launched = was_launched()};
    const char *reason = "the power is off";
    if (device_is_on()) {
        if (last_was_written()) return make_volatile_state(the_device(), &moment, state);
        (void)write_last();
        reason = "the last command was not written; ask again";
    }
    report("there is no volatile state: %s", reason);
    return false;
}

/* Returns a state of the running device. */
static TPM_RESULT present_state(enum TPMLIB_StateType type, struct state *state) {
    bool is_made = true;
    if (type == TPMLIB_STATE_PERMANENT) is_made = make_permanent_state(the_device(), state);
    if (type == TPMLIB_STATE_VOLATILE) is_made = make_present_volatile_state(state);
    return is_made ? TPM_SUCCESS : TPM_FAIL;
}

TPM_RESULT TPMLIB_GetState(enum TPMLIB_StateType st, unsigned char **buffer, uint32_t *buflen) {
    struct state state = {0};
    TPM_RESULT result = TPM_SUCCESS;
    if (place_of(st) == TYPES) return TPM_BAD_TYPE;
    if (device_is_on()) {
        result = present_state(st, &state);
    } else {
        enum kept kept = find_state(st, &state);
        if (kept == NOT_READ) result = TPM_FAIL;
        if (kept == NOT_KEPT && st != TPMLIB_STATE_SAVE_STATE) result = TPM_RETRY;
    }
    *buffer = state.bytes;
    *buflen = (uint32_t)state.size;
    return result;
}

TPM_RESULT TPMLIB_ValidateState(enum TPMLIB_StateType st, unsigned int flags) {
    (void)flags;
    for (size_t i = 0; i < TYPES; i++) {
        struct state state;
        if ((st & types[i]) == 0) continue;
        enum kept kept = find_state(types[i], &state);
        if (kept == NOT_KEPT) continue;
        TPM_RESULT result = kept == KEPT ? look_at(types[i], &state) : TPM_FAIL;
        free_state(&state);
        if (result != TPM_SUCCESS) return result;
    }
    return TPM_SUCCESS;
}

TPM_RESULT TPMLIB_VolatileAll_Store(unsigned char **buffer, uint32_t *buflen) {
    struct state state = {0};
    bool is_made = make_present_volatile_state(&state);
    *buffer = state.bytes;
    *buflen = (uint32_t)state.size;
    return is_made ? TPM_SUCCESS : TPM_FAIL;
}
