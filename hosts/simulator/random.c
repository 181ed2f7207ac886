#include "random.h"
#include "digests.h"
#include "host.h"
#include <string.h>

enum { NUMBER_BYTES = 8, BLOCKS_OF_A_STREAM_BITS = 48 };

void random_begin(struct random *random, const uint8_t *seed, size_t seed_size, unsigned stream) {
    *random = (struct random){.seed = seed, .seed_size = seed_size};
    random->block = (uint64_t)stream << BLOCKS_OF_A_STREAM_BITS;
}

static void fill_block(struct random *random, uint8_t block[SHA256_BYTES]) {
    struct digests digests;
    uint8_t number[NUMBER_BYTES], sha1[SHA1_BYTES];
    for (int i = 0; i < NUMBER_BYTES; i++)
        number[i] = (uint8_t)(random->block >> 8 * (NUMBER_BYTES - 1 - i));
    begin_digests(&digests);
    add_to_digests(&digests, random->seed, random->seed_size);
    add_to_digests(&digests, number, sizeof number);
    end_digests(&digests, sha1, block);
    random->block++;
}

bool random_renew(struct random *random) {
    if (random->seed_size == 0) return host_random(random->bytes, RANDOM_BYTES);
    for (size_t at = 0; at < RANDOM_BYTES; at += SHA256_BYTES) fill_block(random, random->bytes + at);
    return true;
}
