/* The random bytes that commands may draw: fresh ones from the system or, for reproducible runs,
 * bytes that the caller passed. */
#ifndef DRAWS_H
#define DRAWS_H
#include "fork_mark.h"
#include <stdbool.h>
#include <stddef.h>
#include <stdint.h>

enum { DRAWS_BYTES = 256 };

struct draws {
    uint8_t bytes[DRAWS_BYTES];
    bool are_told;
    /* The number of bytes at the beginning that were drawn and must not be used again. */
    size_t drawn;
    /* Set by the process that filled the bytes. A forked child must not use the same bytes. */
    struct fork_mark mark;
};

/* Initializes the random bytes. If `size` is 0, they come from the system; otherwise they are the
 * passed 1 to 256 bytes, which are repeated to fill 256. */
void draws_begin(struct draws *draws, const uint8_t *told, size_t size);

void draws_end(struct draws *draws);

/* Replaces the drawn bytes with fresh ones. Returns false if the system provides none. */
bool draws_renew(struct draws *draws);

#endif
