/* Digests, each of which is any bytes. */
#include "any.h"
#include "digests.h"

void begin_digests(struct digests *digests) { any_bytes(digests, sizeof *digests); }

/*@ requires \valid(digests) && \initialized(&digests->size); requires is_read((char *)text, size); */
void add_to_digests(struct digests *digests, const uint8_t *text, size_t size) {
    any_bytes(digests, sizeof *digests);
}

/*@ requires \valid(digests) && \initialized(&digests->size);
  @ requires is_written((char *)sha1, SHA1_BYTES) && is_written((char *)sha256, SHA256_BYTES); */
void end_digests(struct digests *digests, uint8_t sha1[SHA1_BYTES], uint8_t sha256[SHA256_BYTES]) {
    any_bytes(sha1, SHA1_BYTES);
    any_bytes(sha256, SHA256_BYTES);
}
