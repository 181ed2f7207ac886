/* The power of the device, which swtpm switches on and off. */
#include "callbacks.h"
#include "device.h"
#include "launch.h"
#include "permanent.h"
#include "randomness.h"
#include "report.h"
#include "states.h"
#include "volatile.h"

#include <libtpms/tpm_error.h>
#include <libtpms/tpm_library.h>
#include <stdlib.h>
#include <string.h>

/* Whether the last power-on made a new device. */
static bool was_manufactured;

/* Returns whether the environment requests the completing layer. */
static bool read_completing(void) {
    const char *asked = getenv("TPMSIM_COMPLETE");
    if (asked == NULL || *asked == 0 || strcmp(asked, "0") == 0) {
        let_device_complete(false);
        return true;
    }
    let_device_complete(true);
    if (strcmp(asked, "1") == 0) return true;
    report("TPMSIM_COMPLETE is neither 0 nor 1");
    return false;
}

static bool manufacture(void) {
    const uint8_t *random = random_bytes();
    uint8_t told = random == NULL ? TPMSIM_NO_MEMORY : tpmsim_manufacture(the_device(), random);
    random_bytes_were_drawn(RANDOM_BYTES);
    if (random != NULL && told != TPMSIM_DONE) report("no device is made: %s", words_of_told(told));
    was_manufactured = told == TPMSIM_DONE;
    return was_manufactured;
}

/* Opens the device from the stored permanent state, or makes a new device if there is no such
 * state. */
static bool open_permanent(bool *is_to_be_stored) {
    struct state state;
    enum kept kept = find_state(TPMLIB_STATE_PERMANENT, &state);
    bool is_open = (kept == KEPT && open_permanent_state(the_device(), &state)) ||
                   (kept == NOT_KEPT && manufacture());
    *is_to_be_stored = kept == NOT_KEPT || is_set(TPMLIB_STATE_PERMANENT);
    free_state(&state);
    if (is_open) take_as_permanent(the_device());
    return is_open;
}

/* Continues the device from a volatile state. The permanent state of the device must then be the
 * stored one. */
static bool resume(const struct state *state) {
    struct moment moment;
    if (!open_volatile_state(the_device(), state, &moment)) return false;
    if (!is_permanent(the_device())) {
        report("the volatile state is refused: it is of another permanent state");
        return false;
    }
    tell_launch(moment.was_launched);
    return resume_device(moment.time);
}

/* If there is a volatile state, continues the device from it. Otherwise powers the device on. */
static bool open_volatile(void) {
    struct state state;
    enum kept kept = find_state(TPMLIB_STATE_VOLATILE, &state);
    bool is_open = (kept == KEPT && resume(&state)) || (kept == NOT_KEPT && begin_device());
    free_state(&state);
    return is_open;
}

static bool power_on(void) {
    bool is_to_be_stored = false;
    return read_completing() && begin_callbacks() && open_permanent(&is_to_be_stored) &&
           open_volatile() && (!is_to_be_stored || store_permanent(the_device()));
}

void TPMLIB_Terminate(void) {
    free_device();
    forget_permanent();
    forget_random_bytes();
    tell_launch(false);
}

TPM_RESULT TPMLIB_MainInit(void) {
    TPMLIB_Terminate();
    was_manufactured = false;
    bool is_on = power_on();
    forget_states();
    if (!is_on) TPMLIB_Terminate();
    return is_on ? TPM_SUCCESS : TPM_FAIL;
}

TPM_BOOL TPMLIB_WasManufactured(void) { return was_manufactured ? 1 : 0; }
