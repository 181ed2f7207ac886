/* The SHA-1 and SHA-256 digests of one text, which is added in pieces. */
#ifndef DIGESTS_H
#define DIGESTS_H

#include <stddef.h>
#include <stdint.h>

enum { SHA1_BYTES = 20, SHA256_BYTES = 32, BLOCK_BYTES = 64 };

struct digests {
    uint32_t sha1[SHA1_BYTES / 4];
    uint32_t sha256[SHA256_BYTES / 4];
    uint64_t size;
    uint8_t block[BLOCK_BYTES];
};

void begin_digests(struct digests *digests);
void add_to_digests(struct digests *digests, const uint8_t *text, size_t size);
void end_digests(struct digests *digests, uint8_t sha1[SHA1_BYTES], uint8_t sha256[SHA256_BYTES]);

#endif
