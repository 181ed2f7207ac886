/* The transient objects, sequence objects and sessions that this process has loaded into a device
 * and not flushed. With the option `rm` they are flushed when the context is finalized. The handles
 * are those in the responses that this process received. A forked child starts with an empty list,
 * so that it does not flush what its parent has loaded. */
#ifndef LOADED_H
#define LOADED_H
#include "fork_mark.h"
#include "kept.h"

/* The maximum number of remembered handles, more than a device has. Anything loaded beyond this
 * number is not flushed. */
enum { LOADED_MOST = 64 };

struct loaded {
    uint32_t handles[LOADED_MOST];
    size_t count;
    /* Set by the process that loaded the handles. */
    struct fork_mark mark;
};

void loaded_begin(struct loaded *loaded);

/* Updates the list after a command: adds what the command loaded or started, and removes what it
 * flushed or ended and any session that it saved. A saved object or sequence stays loaded. */
void loaded_follow(struct loaded *loaded, const uint8_t *command, size_t size,
                   const uint8_t *response, size_t response_size);

/* Flushes the remaining objects, sequences and sessions, the latest first. If the device refuses a
 * flush, the object, sequence or session no longer exists. If a command was not answered, returns
 * false and sets `reason`; whatever is left then stays loaded. */
bool loaded_flush(struct loaded *loaded, struct kept *kept, uint8_t locality,
                  struct reason *reason);

void loaded_end(struct loaded *loaded);

#endif
