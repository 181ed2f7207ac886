/* The volatile state: the state text of the device with its completing layer, followed by data that
   belong to the host. */
#ifndef VOLATILE_H
#define VOLATILE_H

#include "states.h"

#include <stdbool.h>
#include <stdint.h>
#include <tpmsim.h>

/* The time at which the device stopped, and whether a dynamic launch took place, which swtpm may
 * ask. */
struct moment {
    /* The time that the host's clock showed at the last command, in milliseconds. */
    uint64_t time;
    bool was_launched;
};

/* Makes the volatile state of a device; the caller has to free the bytes. */
bool make_volatile_state(tpmsim *device, const struct moment *moment, struct state *state);

/* Opens the device from a volatile state, which an older version of the library may have made. */
bool open_volatile_state(tpmsim *device, const struct state *state, struct moment *moment);

#endif
