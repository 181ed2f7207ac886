/* The permanent state, which is the device's image. It is stored when anything in it has changed
 * except the device's clock. */
#ifndef PERMANENT_H
#define PERMANENT_H

#include "states.h"

#include <stdbool.h>
#include <tpmsim.h>

/* Makes the permanent state of a device; the caller has to free the bytes. */
bool make_permanent_state(tpmsim *device, struct state *state);

/* Opens the device from a permanent state. Afterwards the device is in its state after
 * power-on. */
bool open_permanent_state(tpmsim *device, const struct state *state);

/* Remembers the image of this device as the stored image. */
void take_as_permanent(tpmsim *device);

/* Whether the stored image contains the device's current permanent state, except for the
 * clock. */
bool is_permanent(tpmsim *device);

/* Makes swtpm store the image of a device. */
bool store_permanent(tpmsim *device);

/* Makes swtpm store the image of a device if anything in it except the clock differs from the
 * stored image. */
/*@ requires \valid(device);
  @ assigns permanent_state, permanent_is_kept, swtpm_called, stored_bytes, stored_size;
  @ ensures \result ==> permanent_is_kept == 1;
  @*/
bool keep_permanent(tpmsim *device);

/* Clears the remembered state, which contains secrets. */
void forget_permanent(void);

#endif
