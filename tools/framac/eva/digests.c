/* Digests of any number of texts. */
#include "any.h"
#include "digests.h"

int main(void) {
    static uint8_t text[5000];
    struct digests digests;
    uint8_t sha1[SHA1_BYTES], sha256[SHA256_BYTES];
    any_bytes(text, sizeof text);
    begin_digests(&digests);
    while (MAY) add_to_digests(&digests, text, Frama_C_size_t_interval(0, sizeof text));
    end_digests(&digests, sha1, sha256);
    return sha1[SHA1_BYTES - 1] + sha256[SHA256_BYTES - 1];
}
