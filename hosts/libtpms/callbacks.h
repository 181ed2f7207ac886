/* The callbacks of swtpm, which store states by name and report the locality. */
#ifndef CALLBACKS_H
#define CALLBACKS_H

#include <stdbool.h>
#include <stddef.h>
#include <stdint.h>

/* Makes swtpm prepare its storage for states and its channel for commands. */
bool begin_callbacks(void);

enum kept { KEPT, NOT_KEPT, NOT_READ };

/* Reads the state with this name if swtpm has stored one. The caller frees the bytes. */
/*@ requires \valid(bytes) && \valid(size) && \separated(bytes, size, &swtpm_called);
  @ assigns *bytes, *size, swtpm_called;
  @ ensures \result == KEPT ==> *bytes != \null && is_block(*bytes, *size);
  @ ensures \result != KEPT ==> *bytes == \old(*bytes) && *size == \old(*size);
  @*/
enum kept load_state(const char *name, uint8_t **bytes, size_t *size);

/* Makes swtpm store a state with this name. */
/*@ requires \valid_read(bytes + (0 .. size - 1)) && size <= UINT32_MAX;
  @ assigns swtpm_called, stored_bytes, stored_size;
  @ ensures \result ==> stored_bytes == bytes && stored_size == size;
  @*/
bool store_state(const char *name, const uint8_t *bytes, size_t size);

/* Returns swtpm's current locality, 0 to 4, or another number if swtpm reports no
 * locality. */
uint32_t locality_now(void);

#endif
