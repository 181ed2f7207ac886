/* The states of swtpm's own libtpms, which this library cannot open. */
#ifndef FOREIGN_H
#define FOREIGN_H

#include "states.h"

#include <stdint.h>

/* Returns the reason why tpmsim_open or tpmsim_restore has refused a state with this result. */
const char *words_of_state(const struct state *state, uint8_t told);

#endif
