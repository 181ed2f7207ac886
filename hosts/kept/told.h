/* The library's return codes, in words. */
#ifndef TOLD_H
#define TOLD_H
#include "reason.h"
#include "tpmsim.h"

/* Returns the rest of a sentence about a journal or an image. The sentence begins with the
 * path. */
const char *told_words(uint8_t told);

/* Sets the reason to the words for a return code of the library. Returns false, as `refuse`
 * does. */
/*@ requires \valid(reason);
  @ assigns *reason;
  @ ensures !\result;
  @*/
bool refuse_told(struct reason *reason, const char *about, const char *name, uint8_t told);

#endif
