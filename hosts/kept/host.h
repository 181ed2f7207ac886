/* What a device needs from the host: the time, and random bytes. */
#ifndef HOST_H
#define HOST_H
#include <stdbool.h>
#include <stddef.h>
#include <stdint.h>

/* Reads the host's clock, in milliseconds since 1970. Returns false if the clock cannot be read
 * or is before 1970. */
bool host_now(uint64_t *now_ms);

/* Fills a buffer of at most 256 bytes with the system's random bytes. Returns false if the system
 * provides none. */
/*@ requires \valid(room + (0 .. size - 1)) && size <= 256;
  @ assigns __fc_errno, room[0 .. size - 1];
  @ ensures \result ==> random_from_system(room, size);
  @*/
bool host_random(uint8_t *room, size_t size);

#endif
