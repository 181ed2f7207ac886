/* The two digests of FIPS 180-4, which share blocks and padding. */
#include "digests.h"

#include <string.h>

enum { SHA1_ROUNDS = 80, SHA256_ROUNDS = 64, WORDS = 16, LENGTH_AT = BLOCK_BYTES - 8 };

static const uint32_t CONSTANTS[SHA256_ROUNDS] = {
    0x428a2f98, 0x71374491, 0xb5c0fbcf, 0xe9b5dba5, 0x3956c25b, 0x59f111f1, 0x923f82a4, 0xab1c5ed5,
    0xd807aa98, 0x12835b01, 0x243185be, 0x550c7dc3, 0x72be5d74, 0x80deb1fe, 0x9bdc06a7, 0xc19bf174,
    0xe49b69c1, 0xefbe4786, 0x0fc19dc6, 0x240ca1cc, 0x2de92c6f, 0x4a7484aa, 0x5cb0a9dc, 0x76f988da,
    0x983e5152, 0xa831c66d, 0xb00327c8, 0xbf597fc7, 0xc6e00bf3, 0xd5a79147, 0x06ca6351, 0x14292967,
    0x27b70a85, 0x2e1b2138, 0x4d2c6dfc, 0x53380d13, 0x650a7354, 0x766a0abb, 0x81c2c92e, 0x92722c85,
    0xa2bfe8a1, 0xa81a664b, 0xc24b8b70, 0xc76c51a3, 0xd192e819, 0xd6990624, 0xf40e3585, 0x106aa070,
    0x19a4c116, 0x1e376c08, 0x2748774c, 0x34b0bcb5, 0x391c0cb3, 0x4ed8aa4a, 0x5b9cca4f, 0x682e6ff3,
    0x748f82ee, 0x78a5636f, 0x84c87814, 0x8cc70208, 0x90befffa, 0xa4506ceb, 0xbef9a3f7, 0xc67178f2};

static uint32_t turned_left(uint32_t word, unsigned bits) {
    return word << bits | word >> (32 - bits);
}

static uint32_t turned_right(uint32_t word, unsigned bits) { return turned_left(word, 32 - bits); }

static void read_words(const uint8_t block[BLOCK_BYTES], uint32_t words[WORDS]) {
    for (size_t i = 0; i < WORDS; i++) {
        const uint8_t *four = block + 4 * i;
        words[i] = (uint32_t)four[0] << 24 | (uint32_t)four[1] << 16 | (uint32_t)four[2] << 8 | four[3];
    }
}

static void write_words(const uint32_t *words, size_t count, uint8_t *bytes) {
    for (size_t i = 0; i < 4 * count; i++) bytes[i] = (uint8_t)(words[i / 4] >> (24 - 8 * (i % 4)));
}

/* Returns the value of the round function of SHA-1 plus the constant of the round. */
static uint32_t sha1_function(int round, uint32_t b, uint32_t c, uint32_t d) {
    if (round < 20) return ((b & c) | (~b & d)) + 0x5a827999;
    if (round < 40) return (b ^ c ^ d) + 0x6ed9eba1;
    if (round < 60) return ((b & c) | (b & d) | (c & d)) + 0x8f1bbcdc;
    return (b ^ c ^ d) + 0xca62c1d6;
}

static void sha1_block(uint32_t state[5], const uint8_t block[BLOCK_BYTES]) {
    uint32_t words[SHA1_ROUNDS] = {0}, a = state[0], b = state[1], c = state[2], d = state[3], e = state[4];
    read_words(block, words);
    for (int i = WORDS; i < SHA1_ROUNDS; i++)
        words[i] = turned_left(words[i - 3] ^ words[i - 8] ^ words[i - 14] ^ words[i - 16], 1);
    for (int i = 0; i < SHA1_ROUNDS; i++) {
        uint32_t next = turned_left(a, 5) + sha1_function(i, b, c, d) + e + words[i];
        e = d;
        d = c;
        c = turned_left(b, 30);
        b = a;
        a = next;
    }
    state[0] += a;
    state[1] += b;
    state[2] += c;
    state[3] += d;
    state[4] += e;
}

static void sha256_words(const uint8_t block[BLOCK_BYTES], uint32_t words[SHA256_ROUNDS]) {
    read_words(block, words);
    for (int i = WORDS; i < SHA256_ROUNDS; i++) {
        uint32_t near = words[i - 2], far = words[i - 15];
        words[i] = words[i - 16] + words[i - 7] +
                   (turned_right(far, 7) ^ turned_right(far, 18) ^ far >> 3) +
                   (turned_right(near, 17) ^ turned_right(near, 19) ^ near >> 10);
    }
}

static void sha256_block(uint32_t state[8], const uint8_t block[BLOCK_BYTES]) {
    uint32_t words[SHA256_ROUNDS] = {0}, now[8];
    sha256_words(block, words);
    memcpy(now, state, sizeof now);
    for (int i = 0; i < SHA256_ROUNDS; i++) {
        uint32_t a = now[0], e = now[4];
        uint32_t one = now[7] + (turned_right(e, 6) ^ turned_right(e, 11) ^ turned_right(e, 25)) +
                       ((e & now[5]) ^ (~e & now[6])) + CONSTANTS[i] + words[i];
        uint32_t two = (turned_right(a, 2) ^ turned_right(a, 13) ^ turned_right(a, 22)) +
                       ((a & now[1]) ^ (a & now[2]) ^ (now[1] & now[2]));
        memmove(now + 1, now, sizeof now - sizeof now[0]);
        now[4] += one;
        now[0] = one + two;
    }
    for (int i = 0; i < 8; i++) state[i] += now[i];
}

static void take_block(struct digests *digests) {
    sha1_block(digests->sha1, digests->block);
    sha256_block(digests->sha256, digests->block);
}

void begin_digests(struct digests *digests) {
    *digests = (struct digests){
        .sha1 = {0x67452301, 0xefcdab89, 0x98badcfe, 0x10325476, 0xc3d2e1f0},
        .sha256 = {0x6a09e667, 0xbb67ae85, 0x3c6ef372, 0xa54ff53a, 0x510e527f, 0x9b05688c, 0x1f83d9ab,
                   0x5be0cd19}};
}

void add_to_digests(struct digests *digests, const uint8_t *text, size_t size) {
    for (size_t i = 0; i < size; i++) {
        digests->block[digests->size++ % BLOCK_BYTES] = text[i];
        if (digests->size % BLOCK_BYTES == 0) take_block(digests);
    }
}

void end_digests(struct digests *digests, uint8_t sha1[SHA1_BYTES], uint8_t sha256[SHA256_BYTES]) {
    uint64_t bits = 8 * digests->size;
    uint8_t length[8], next = 0x80;
    for (unsigned i = 0; i < sizeof length; i++) length[i] = (uint8_t)(bits >> (56 - 8 * i));
    do {
        add_to_digests(digests, &next, 1);
        next = 0;
    } while (digests->size % BLOCK_BYTES != LENGTH_AT);
    add_to_digests(digests, length, sizeof length);
    write_words(digests->sha1, SHA1_BYTES / 4, sha1);
    write_words(digests->sha256, SHA256_BYTES / 4, sha256);
}
