/* The random bytes of a device: fresh ones from the system or, for reproducible runs, bytes that
   are computed from a seed. Each block of the computed bytes is the SHA-256 digest of the seed
   and the block's number. */
#ifndef RANDOM_H
#define RANDOM_H
#include <stdbool.h>
#include <stddef.h>
#include <stdint.h>

enum { RANDOM_BYTES = 256 };

struct random {
    const uint8_t *seed;
    size_t seed_size;
    uint64_t block;
    uint8_t bytes[RANDOM_BYTES];
};

/* Initializes `random`. `seed` must exist as long as `random`; the size 0 selects the system's
   random bytes. Devices with the same seed must have different values of `stream`. */
void random_begin(struct random *random, const uint8_t *seed, size_t seed_size, unsigned stream);

/* Replaces all bytes. Returns false if the system provides none. */
bool random_renew(struct random *random);

#endif
