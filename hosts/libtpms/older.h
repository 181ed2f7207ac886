/* The volatile state of an older version of this library: the device's journal, followed by one
 * more line. */
#ifndef OLDER_H
#define OLDER_H

#include "volatile.h"

#include <stdbool.h>
#include <stddef.h>
#include <stdint.h>
#include <tpmsim.h>

bool is_older_state(const uint8_t *text, size_t size);

/* Opens the device by executing the journal again. Returns NULL, or the reason why the state is
 * refused. */
const char *open_older_state(tpmsim *device, const uint8_t *text, size_t size, struct moment *moment);

#endif
