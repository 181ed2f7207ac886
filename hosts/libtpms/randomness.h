/* The host's random bytes. Each command gets 256 bytes, and those that it drew are then
 * replaced. */
#ifndef RANDOMNESS_H
#define RANDOMNESS_H

#include <stddef.h>
#include <stdint.h>

enum { RANDOM_BYTES = 256 };

/* Returns RANDOM_BYTES bytes that no command has drawn yet; NULL if the system provides none. */
/*@ assigns random_state;
  @ ensures \result == \null || (\valid_read(\result + (0 .. 255)) && is_block(\result, 256));
  @*/
const uint8_t *random_bytes(void);

/* Notes that the first `count` of the returned bytes were drawn. */
/*@ assigns random_state; */
void random_bytes_were_drawn(size_t count);

/* Clears all random bytes. */
void forget_random_bytes(void);

#endif
