/* The functions with which proved code uses the heap. They are not proved, but trusted to satisfy
 * the contracts of Rattle's library `libc`, which the comments of glue.h state in prose. Rattle's
 * kit contains these functions, compiled for x86-64. */
#include "glue.h"
#include <stdlib.h>

/* The address that a failed allocation returns as its block. It is not null, and nobody reads or
 * writes there. */
static char no_block;

static struct tried tried_of(void *block) {
    return (struct tried){.ok = block != NULL, .block = block != NULL ? block : &no_block};
}

/* malloc aligns to 16 bytes, which is enough for every requested alignment. */
struct tried rattle_alloc(size_t size, size_t alignment) {
    return tried_of(malloc(size != 0 ? size : alignment));
}

struct tried rattle_realloc(void *block, size_t kept, size_t size, size_t alignment) {
    (void)kept; /* realloc preserves all bytes that fit. */
    return tried_of(realloc(block, size != 0 ? size : alignment));
}

void rattle_dealloc(void *block) {
    free(block);
}
