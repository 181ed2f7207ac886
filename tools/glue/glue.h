/* The nine C functions that Rattle's libraries `libc` and `os` need in addition to the C library.
 * Proved code relies on their contracts, but no proof shows that the C code satisfies the
 * contracts. Rattle's kit contains these functions, compiled for x86-64. For other machines they
 * are built from this folder. */
#ifndef GLUE_H
#define GLUE_H
#include <stdbool.h>
#include <stddef.h>
#include <stdint.h>
#include <sys/types.h>

/* The result of an allocation: `ok` is 1 if it succeeded, otherwise 0. After a failure, `block` is
 * a non-null address that must not be used. Proved code reads only one byte of `ok`. The other
 * bytes of `ok` are zeros. */
struct tried {
    uint64_t ok;
    void *block;
};

/* Allocates `size` bytes, aligned to `alignment`. `size` is less than 2^63, and `alignment` divides
 * 16. */
struct tried rattle_alloc(size_t size, size_t alignment);

/* Resizes a block to `size` bytes, and may move it. The first `kept` bytes are unchanged; `kept` is
 * at most the old size and the new size. If the allocation fails, the block is unchanged, and the
 * caller still owns it. */
struct tried rattle_realloc(void *block, size_t kept, size_t size, size_t alignment);

/* Frees a block that rattle_alloc or rattle_realloc returned. */
void rattle_dealloc(void *block);

/* These functions return and set this thread's errno of the C library. */
int rattle_errno(void);
void rattle_set_errno(int error);

/* Writes the argument with this number to the beginning of a buffer, without its terminating zero,
 * and returns its length. Returns -1 if there is no such argument. Returns -2 if it does not fit;
 * the buffer then contains as much of it as fits. */
ssize_t rattle_arg(size_t number, unsigned char *buffer, size_t size);

/* Writes the value of an environment variable to the beginning of a buffer, without its terminating
 * zero, and returns its length. `name` ends with a zero. Returns -1 if there is no such variable.
 * Returns -2 if the value does not fit; the buffer then contains as much of it as fits. */
ssize_t rattle_env(const char *name, unsigned char *buffer, size_t size);

/* Writes the environment's entry with this number, NAME=VALUE. Returns the same values as
 * rattle_env. */
ssize_t rattle_env_at(size_t number, unsigned char *buffer, size_t size);

/* Makes the descriptor's open file non-blocking, or blocking if `on` is false. Returns 0, or -1 on
 * error. */
int rattle_set_nonblocking(int descriptor, bool on);

#endif
