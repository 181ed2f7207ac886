/* Encodes the commands that the examples need. A real program would use a TPM library for this. */
#ifndef COMMANDS_H
#define COMMANDS_H

#include "tpmsim.h"
#include <stdarg.h>
#include <stdio.h>
#include <stdlib.h>
#include <string.h>
#include <sys/random.h>

#define NONE 0xffffffffu /* marks the end of a list of handles */

enum { OWNER = 0x40000001, NULL_HANDLE = 0x40000007, PASSWORD = 0x40000009 };
enum { LOCKOUT = 0x4000000a, INDEX = 0x01000001 };
enum { POLICY = 1, TRIAL = 3 };

/* A buffer to which bytes are appended. */
typedef struct {
    size_t size;
    uint8_t bytes[4096];
} text;

/* A TPM, and its last response: the response code, the handle, and the parameters with their
 * size. */
typedef struct {
    tpmsim device;
    uint8_t random[256];
    tpmsim_answered told;
    uint32_t code, handle;
    const uint8_t *parameters;
    size_t size;
    uint8_t response[4096];
    uint32_t elapsed_ms;
} tpm;

/* The authorization for the first handle: a password, a policy session with an authorization value
   as a password, or a complete entry. */
typedef struct {
    uint32_t session;
    const char *value;
    const text *entry;
} by;

static inline void put(text *to, const void *bytes, size_t size) {
    memcpy(to->bytes + to->size, bytes, size);
    to->size += size;
}

static inline void put_number(text *to, uint64_t number, unsigned size) {
    while (size-- > 0) to->bytes[to->size++] = (uint8_t)(number >> 8 * size);
}

/* Appends a size field of two bytes, followed by the buffer. */
static inline void put_sized(text *to, const void *bytes, size_t size) {
    put_number(to, size, 2);
    put(to, bytes, size);
}

static inline void put_zeros(text *to, size_t count) {
    while (count-- > 0) put_number(to, 0, 1);
}

static inline uint32_t number_at(const uint8_t *bytes, unsigned size) {
    uint32_t number = 0;
    while (size-- > 0) number = number << 8 | *bytes++;
    return number;
}

/* Ends the program if a condition that should always be true is false. */
static inline void need(int holds, const char *what) {
    if (holds) return;
    fprintf(stderr, "%s\n", what);
    exit(1);
}

static inline void begin(tpm *it) {
    static const uint8_t startup[] = {0x80, 1, 0, 0, 0, 12, 0, 0, 1, 0x44, 0, 0};
    memset(it, 0, sizeof *it);
    need(getrandom(it->random, 256, 0) == 256, "there are no random bytes");
    need(!tpmsim_manufacture(&it->device, it->random), "there is no memory");
    need(getrandom(it->random, 256, 0) == 256, "there are no random bytes");
    tpmsim_execute(&it->device, startup, sizeof startup, 0, 0, it->random, it->response, &it->told);
    need(!number_at(it->response + 6, 4), "TPM2_Startup is refused");
}

/* Appends an authorization area with one entry. */
static inline void put_sized_area(text *to, const text *entry) {
    put_number(to, entry->size, 4);
    put(to, entry->bytes, entry->size);
}

static inline void put_entry(text *to, by who) {
    text entry = {0};
    if (who.entry) {
        put_sized_area(to, who.entry);
        return;
    }
    put_number(&entry, who.session, 4);
    put_number(&entry, who.session == PASSWORD ? 0 : 16, 2);
    put_zeros(&entry, who.session == PASSWORD ? 0 : 16);
    put_number(&entry, who.session != PASSWORD, 1);
    put_sized(&entry, who.value, strlen(who.value));
    put_sized_area(to, &entry);
}

/* Returns the bytes of a command. The last of its handles is NONE. */
static inline text command_of(uint32_t code, const uint32_t *handles, const by *who,
                              const text *parameters) {
    text body = {0}, command = {0};
    while (*handles != NONE) put_number(&body, *handles++, 4);
    if (who) put_entry(&body, *who);
    if (parameters) put(&body, parameters->bytes, parameters->size);
    put_number(&command, who ? 0x8002 : 0x8001, 2);
    put_number(&command, 10 + body.size, 4);
    put_number(&command, code, 4);
    put(&command, body.bytes, body.size);
    return command;
}

/* Sends the bytes of a command. Returns whether the TPM accepts it. */
static inline int send_bytes(tpm *it, const text *command, uint32_t code, int has_entry) {
    need(!tpmsim_execute(&it->device, command->bytes, command->size, 0, it->elapsed_ms, it->random,
                         it->response, &it->told),
         "there is no device");
    it->elapsed_ms = 0;
    need(getrandom(it->random, it->told.drawn, 0) == (ssize_t)it->told.drawn, "no random bytes");
    it->code = number_at(it->response + 6, 4);
    it->parameters = it->response + 10;
    if (code == 0x131 || code == 0x157 || code == 0x176) { /* their responses contain a handle */
        it->handle = number_at(it->parameters, 4);
        it->parameters += 4;
    }
    it->size = it->told.size - (size_t)(it->parameters - it->response);
    if (has_entry && !it->code) {
        it->size = number_at(it->parameters, 4);
        it->parameters += 4;
    }
    return it->code == 0;
}

/* Sends a command. The last of its handles is NONE. Returns whether the TPM accepts it. */
static inline int send_command(tpm *it, uint32_t code, const uint32_t *handles, const by *who,
                               const text *parameters) {
    const text command = command_of(code, handles, who, parameters);
    return send_bytes(it, &command, code, who != NULL);
}

/* Sends a command, which the TPM must accept. */
static inline void must(tpm *it, uint32_t code, const uint32_t *handles, const by *who,
                        const text *parameters) {
    need(send_command(it, code, handles, who, parameters), "a command is refused");
}

#define HANDLES(...)                                                                               \
    (const uint32_t[]) { __VA_ARGS__, NONE }
#define BY_PASSWORD(given)                                                                         \
    &(by) { .session = PASSWORD, .value = given }

/* Removes the first sized buffer from the parameters, and returns it. */
static inline text take_buffer(tpm *it) {
    text buffer = {0};
    const size_t size = number_at(it->parameters, 2);
    put(&buffer, it->parameters + 2, size);
    it->parameters += 2 + size;
    return buffer;
}

/* Appends a selection of PCRs in the SHA-256 bank: bit N selects PCR N. */
static inline void put_selection(text *to, uint32_t pcrs) {
    put(to, "\0\0\0\1\0\013\3", 7);
    for (unsigned at = 0; at < 3; at++) put_number(to, pcrs >> 8 * at & 0xff, 1);
}

/* Starts a SHA-256 session that is neither bound nor salted. */
static inline uint32_t start_session(tpm *it, uint8_t kind) {
    text parameters = {0};
    put_number(&parameters, 16, 2);
    put_zeros(&parameters, 16 + 2);
    put_number(&parameters, kind, 1);
    put_number(&parameters, 0x0010000b, 4);
    must(it, 0x176, HANDLES(NULL_HANDLE, NULL_HANDLE), NULL, &parameters);
    return it->handle;
}

static inline void flush(tpm *it, uint32_t handle) {
    text parameters = {0};
    put_number(&parameters, handle, 4);
    must(it, 0x165, HANDLES(NONE), NULL, &parameters);
}

/* Flushes a trial session, and returns its policy digest. */
static inline text digest_of(tpm *it, uint32_t trial) {
    must(it, 0x189, HANDLES(trial), NULL, NULL);
    const text digest = take_buffer(it);
    flush(it, trial);
    return digest;
}

/* Creates the owner's storage key, an AES key. The same template always creates the same key. */
static inline uint32_t storage_key(tpm *it, const char *owner) {
    text parameters = {0};
    put_number(&parameters, 4, 2);
    put_zeros(&parameters, 4);
    put_sized(&parameters, "\0\045\0\013\0\3\4\162\0\0\0\6\0\200\0\103\0\0", 18);
    put_zeros(&parameters, 6);
    must(it, 0x131, HANDLES(OWNER), BY_PASSWORD(owner), &parameters);
    return it->handle;
}

/* Seals data in a child of a storage key, with an authorization value and a policy, and loads the
   sealed object. */
static inline uint32_t seal(tpm *it, uint32_t parent, const char *value, text policy,
                            const char *data) {
    text sensitive = {0}, public = {0}, parameters = {0}, areas = {0};
    put_sized(&sensitive, value, strlen(value));
    put_sized(&sensitive, data, strlen(data));
    put_number(&public, 0x0008000b00000012, 8);
    put_sized(&public, policy.bytes, policy.size);
    put_number(&public, 0x00100000, 4);
    put_sized(&parameters, sensitive.bytes, sensitive.size);
    put_sized(&parameters, public.bytes, public.size);
    put_zeros(&parameters, 6);
    must(it, 0x153, HANDLES(parent), BY_PASSWORD(""), &parameters);
    for (int area = 0; area < 2; area++) {
        const text made = take_buffer(it);
        put_sized(&areas, made.bytes, made.size);
    }
    must(it, 0x157, HANDLES(parent), BY_PASSWORD(""), &areas);
    return it->handle;
}

static inline int unseal(tpm *it, uint32_t handle, by who) {
    return send_command(it, 0x15e, HANDLES(handle), &who, NULL);
}

/* Defines the NV index of the examples, with these attributes and a size of 8 bytes. */
static inline void define(tpm *it, uint32_t attributes, const char *value) {
    text area = {0}, parameters = {0};
    put_number(&area, INDEX, 4);
    put_number(&area, 0x000b, 2);
    put_number(&area, attributes, 4);
    put_number(&area, 8, 4);
    put_sized(&parameters, value, strlen(value));
    put_sized(&parameters, area.bytes, area.size);
    must(it, 0x12a, HANDLES(OWNER), BY_PASSWORD(""), &parameters);
}

/* Reads the NV index of the examples. */
static inline int read_index(tpm *it, const char *value) {
    const text parameters = {4, {0, 8, 0, 0}};
    return send_command(it, 0x14e, HANDLES(INDEX, INDEX), BY_PASSWORD(value), &parameters);
}

/* Measures data into a PCR. Returns the digest in the SHA-256 bank, 32 bytes. */
static inline const uint8_t *measure(tpm *it, uint32_t pcr, const char *data) {
    text parameters = {0};
    put_sized(&parameters, data, strlen(data));
    must(it, 0x13c, HANDLES(pcr), BY_PASSWORD(""), &parameters);
    return it->parameters + 4 + 2 + 20 + 2; /* the count and the SHA-1 digest precede it */
}

/* Prints a line of an example: the returned buffer, or the code and the check of a refusal. */
static inline void tell(tpm *it, const char *what) {
    char check[5];
    if (it->code) {
        printf("%s: %03X, by %s\n", what, it->code, tpmsim_check_text(it->told.check, check));
        return;
    }
    const text buffer = take_buffer(it);
    printf("%s: %.*s\n", what, (int)buffer.size, (const char *)buffer.bytes);
}

#endif
