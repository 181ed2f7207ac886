/* The states of a device. A state that swtpm set before power-on is used instead of the stored
 * one. */
#ifndef STATES_H
#define STATES_H

#include "callbacks.h"

#include <libtpms/tpm_library.h>
#include <stdbool.h>
#include <stddef.h>
#include <stdint.h>

/* The bytes of a state; NULL if there is none. */
struct state {
    uint8_t *bytes;
    size_t size;
};

/* Whether the state of this type was set by TPMLIB_SetState. */
bool is_set(enum TPMLIB_StateType type);

/* Returns the state of this type that was set, or else the stored one. The caller has to free the
   bytes. A missing state counts as not stored. */
enum kept find_state(enum TPMLIB_StateType type, struct state *state);

/* Clears the bytes of a state, and frees them. */
void free_state(struct state *state);

/* Forgets all states that were set. */
void forget_states(void);

#endif
