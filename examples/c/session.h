/* A session that computes HMACs, is bound to the entity that it authorizes, and encrypts with
   AES-128 in CFB mode. SHA-256, HMAC, KDFa and AES are implemented here. A real program would use a
   library for them. */
#ifndef SESSION_H
#define SESSION_H

#include "commands.h"

/* Attributes of a session: it continues after the command; the device decrypts the first parameter
   of the command; the device encrypts the first parameter of the response. */
enum { CONTINUES = 0x01, DECRYPTS = 0x20, ENCRYPTS = 0x40 };

enum { HASH_BYTES = 32, BLOCK_BYTES = 16, NONCE_BYTES = 16 };

typedef struct {
    uint8_t bytes[HASH_BYTES];
} hash;

typedef struct {
    uint32_t handle;
    hash key;
    uint8_t nonce_tpm[NONCE_BYTES], nonce_caller[NONCE_BYTES];
    const char *value;
} session;

static const uint32_t sha256_start[8] = {0x6a09e667, 0xbb67ae85, 0x3c6ef372, 0xa54ff53a,
                                         0x510e527f, 0x9b05688c, 0x1f83d9ab, 0x5be0cd19};

static const uint32_t sha256_rounds[64] = {
    0x428a2f98, 0x71374491, 0xb5c0fbcf, 0xe9b5dba5, 0x3956c25b, 0x59f111f1, 0x923f82a4, 0xab1c5ed5,
    0xd807aa98, 0x12835b01, 0x243185be, 0x550c7dc3, 0x72be5d74, 0x80deb1fe, 0x9bdc06a7, 0xc19bf174,
    0xe49b69c1, 0xefbe4786, 0x0fc19dc6, 0x240ca1cc, 0x2de92c6f, 0x4a7484aa, 0x5cb0a9dc, 0x76f988da,
    0x983e5152, 0xa831c66d, 0xb00327c8, 0xbf597fc7, 0xc6e00bf3, 0xd5a79147, 0x06ca6351, 0x14292967,
    0x27b70a85, 0x2e1b2138, 0x4d2c6dfc, 0x53380d13, 0x650a7354, 0x766a0abb, 0x81c2c92e, 0x92722c85,
    0xa2bfe8a1, 0xa81a664b, 0xc24b8b70, 0xc76c51a3, 0xd192e819, 0xd6990624, 0xf40e3585, 0x106aa070,
    0x19a4c116, 0x1e376c08, 0x2748774c, 0x34b0bcb5, 0x391c0cb3, 0x4ed8aa4a, 0x5b9cca4f, 0x682e6ff3,
    0x748f82ee, 0x78a5636f, 0x84c87814, 0x8cc70208, 0x90befffa, 0xa4506ceb, 0xbef9a3f7, 0xc67178f2};

static inline uint32_t rotated(uint32_t word, unsigned by) {
    return word >> by | word << (32 - by);
}

static inline void sha256_block(uint32_t state[8], const uint8_t *block) {
    uint32_t words[64], at[8];
    for (int i = 0; i < 16; i++) words[i] = number_at(block + 4 * i, 4);
    for (int i = 16; i < 64; i++) {
        const uint32_t two = words[i - 2], fifteen = words[i - 15];
        words[i] = words[i - 16] + words[i - 7] +
                   (rotated(two, 17) ^ rotated(two, 19) ^ two >> 10) +
                   (rotated(fifteen, 7) ^ rotated(fifteen, 18) ^ fifteen >> 3);
    }
    memcpy(at, state, sizeof at);
    for (int i = 0; i < 64; i++) {
        const uint32_t a = at[0], e = at[4];
        const uint32_t first = at[7] + (rotated(e, 6) ^ rotated(e, 11) ^ rotated(e, 25)) +
                               ((e & at[5]) ^ (~e & at[6])) + sha256_rounds[i] + words[i];
        const uint32_t second = (rotated(a, 2) ^ rotated(a, 13) ^ rotated(a, 22)) +
                                ((a & at[1]) ^ (a & at[2]) ^ (at[1] & at[2]));
        memmove(at + 1, at, 7 * sizeof *at);
        at[4] += first;
        at[0] = first + second;
    }
    for (int i = 0; i < 8; i++) state[i] += at[i];
}

static inline hash sha256(text message) {
    uint32_t state[8];
    hash digest;
    const size_t size = message.size;
    memcpy(state, sha256_start, sizeof state);
    put_number(&message, 0x80, 1);
    put_zeros(&message, 63 - (size + 8) % 64);
    put_number(&message, 8 * size, 8);
    for (size_t at = 0; at < message.size; at += 64) sha256_block(state, message.bytes + at);
    for (int i = 0; i < HASH_BYTES; i++)
        digest.bytes[i] = (uint8_t)(state[i / 4] >> (24 - i % 4 * 8));
    return digest;
}

/* Returns the HMAC-SHA-256 of a message. The key has at most 64 bytes. */
static inline hash hmac(const text *key, const text *message) {
    text inner = {0}, outer = {0};
    for (size_t at = 0; at < 64; at++) {
        const uint8_t byte = at < key->size ? key->bytes[at] : 0;
        put_number(&inner, byte ^ 0x36u, 1);
        put_number(&outer, byte ^ 0x5cu, 1);
    }
    put(&inner, message->bytes, message->size);
    put(&outer, sha256(inner).bytes, HASH_BYTES);
    return sha256(outer);
}

/* Derives 256 bits from a key and two nonces with KDFa. */
static inline hash kdfa(const text *key, const char *label, const uint8_t *newer,
                        const uint8_t *older) {
    text message = {0};
    put_number(&message, 1, 4);
    put(&message, label, strlen(label) + 1);
    put(&message, newer, NONCE_BYTES);
    put(&message, older, NONCE_BYTES);
    put_number(&message, 256, 4);
    return hmac(key, &message);
}

/* Doubles an element of the field that AES uses. */
static inline uint8_t doubled(uint8_t byte) { return (uint8_t)(byte << 1 ^ (byte >> 7) * 0x1b); }

static inline uint8_t rotated_byte(uint8_t byte, unsigned by) {
    return (uint8_t)(byte << by | byte >> (8 - by));
}

/* Computes the S-box of AES: `power` runs through all elements except zero, and `inverse` is its
 * inverse. */
static inline void make_substitutions(uint8_t table[256]) {
    uint8_t power = 1, inverse = 1;
    do {
        power ^= doubled(power);
        inverse ^= (uint8_t)(inverse << 1);
        inverse ^= (uint8_t)(inverse << 2);
        inverse ^= (uint8_t)(inverse << 4);
        inverse ^= (inverse >> 7) * 0x09;
        table[power] = inverse ^ 0x63;
        for (unsigned by = 1; by < 5; by++) table[power] ^= rotated_byte(inverse, by);
    } while (power != 1);
    table[0] = 0x63;
}

/* Encrypts one block with AES-128. */
static inline void encrypt_block(const uint8_t *first_key, uint8_t *block) {
    uint8_t table[256], key[BLOCK_BYTES], constant = 1;
    make_substitutions(table);
    memcpy(key, first_key, sizeof key);
    for (int at = 0; at < BLOCK_BYTES; at++) block[at] ^= key[at];
    for (int round = 1; round <= 10; round++) {
        uint8_t shifted[BLOCK_BYTES];
        for (int at = 0; at < 4; at++) key[at] ^= table[key[12 + (at + 1) % 4]];
        key[0] ^= constant;
        constant = doubled(constant);
        for (int at = 4; at < BLOCK_BYTES; at++) key[at] ^= key[at - 4];
        for (int at = 0; at < BLOCK_BYTES; at++) shifted[at] = table[block[at * 5 % BLOCK_BYTES]];
        for (int at = 0; at < BLOCK_BYTES; at++) {
            const uint8_t *column = shifted + at / 4 * 4;
            const uint8_t a = column[at % 4], b = column[(at + 1) % 4];
            block[at] = key[at] ^ a;
            if (round < 10) {
                block[at] = key[at] ^ doubled(a ^ b) ^ b;
                block[at] ^= column[(at + 2) % 4] ^ column[(at + 3) % 4];
            }
        }
    }
}

/* Encrypts or decrypts with AES-128 in CFB mode, with a key and an initial block. */
static inline void cfb(hash keys, int encrypts, uint8_t *data, size_t size) {
    uint8_t *before = keys.bytes + BLOCK_BYTES;
    for (size_t at = 0; at < size; at++) {
        if (at % BLOCK_BYTES == 0) encrypt_block(keys.bytes, before);
        const uint8_t changed = data[at] ^ before[at % BLOCK_BYTES];
        before[at % BLOCK_BYTES] = encrypts ? changed : data[at];
        data[at] = changed;
    }
}

static inline void new_nonce(session *it) {
    need(getrandom(it->nonce_caller, NONCE_BYTES, 0) == NONCE_BYTES, "there are no random bytes");
}

/* Starts a session that is bound to the entity with a handle. `value` is the authorization value of
 * that entity. */
static inline session start_bound(tpm *device, uint32_t bind, const char *value) {
    session it = {.value = value};
    text parameters = {0}, key = {0};
    new_nonce(&it);
    put_sized(&parameters, it.nonce_caller, NONCE_BYTES);
    put(&parameters, "\0\0\0\0\006\0\200\0\103\0\013", 11);
    must(device, 0x176, HANDLES(NULL_HANDLE, bind), NULL, &parameters);
    it.handle = device->handle;
    memcpy(it.nonce_tpm, device->parameters + 2, NONCE_BYTES);
    put(&key, value, strlen(value));
    it.key = kdfa(&key, "ATH", it.nonce_tpm, it.nonce_caller);
    return it;
}

/* Returns the encryption key and the initial block, which are derived from two nonces. */
static inline hash keys_of(const session *it, const uint8_t *newer, const uint8_t *older) {
    text key = {0};
    put(&key, it->key.bytes, HASH_BYTES);
    put(&key, it->value, strlen(it->value));
    return kdfa(&key, "CFB", newer, older);
}

/* Returns the HMAC of an authorization entry. `hashed` contains the bytes that precede the
 * parameters in cpHash or rpHash. */
static inline hash mac_of(const session *it, text hashed, const text *parameters,
                          const uint8_t *newer, const uint8_t *older, uint8_t attributes) {
    text key = {0}, message = {0};
    put(&hashed, parameters->bytes, parameters->size);
    put(&message, sha256(hashed).bytes, HASH_BYTES);
    put(&message, newer, NONCE_BYTES);
    put(&message, older, NONCE_BYTES);
    put_number(&message, attributes, 1);
    put(&key, it->key.bytes, HASH_BYTES);
    return hmac(&key, &message);
}

/* Returns the authorization entry of a command. `names` contains the Names of its handles. If the
   attributes require it, encrypts the first parameter. */
static inline text entry_of(session *it, uint32_t code, const text *names, text *parameters,
                            uint8_t attributes) {
    text hashed = {0}, entry = {0};
    new_nonce(it);
    if (attributes & DECRYPTS)
        cfb(keys_of(it, it->nonce_caller, it->nonce_tpm), 1, parameters->bytes + 2,
            number_at(parameters->bytes, 2));
    put_number(&hashed, code, 4);
    put(&hashed, names->bytes, names->size);
    const hash mac = mac_of(it, hashed, parameters, it->nonce_caller, it->nonce_tpm, attributes);
    put_number(&entry, it->handle, 4);
    put_sized(&entry, it->nonce_caller, NONCE_BYTES);
    put_number(&entry, attributes, 1);
    put_sized(&entry, mac.bytes, HASH_BYTES);
    return entry;
}

/* Checks the response's HMAC, and returns the decrypted parameters. */
static inline text plain_answer(session *it, const tpm *device, uint32_t code) {
    text hashed = {0}, parameters = {0};
    const uint8_t *nonce = device->parameters + device->size + 2;
    const uint8_t attributes = nonce[NONCE_BYTES];
    put(&parameters, device->parameters, device->size);
    put_number(&hashed, code, 8); /* the response code, which is 0, and the command code */
    const hash mac = mac_of(it, hashed, &parameters, nonce, it->nonce_caller, attributes);
    need(!memcmp(nonce + NONCE_BYTES + 3, mac.bytes, HASH_BYTES), "the response is not the TPM's");
    memcpy(it->nonce_tpm, nonce, NONCE_BYTES);
    if (attributes & ENCRYPTS)
        cfb(keys_of(it, it->nonce_tpm, it->nonce_caller), 0, parameters.bytes + 2,
            number_at(parameters.bytes, 2));
    return parameters;
}

#endif
