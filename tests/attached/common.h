/* Functions that the test programs of the host in C share. */
#ifndef COMMON_H
#define COMMON_H
#define _GNU_SOURCE
#include "kept.h"
#include <fcntl.h>
#include <stdio.h>
#include <stdlib.h>
#include <string.h>
#include <unistd.h>

enum { RESPONSE_BYTES = 4096, DIGEST_BYTES = 32 };

/* TPM2_Startup(CLEAR), TPM2_GetRandom of sixteen bytes, and TPM2_ReadClock. */
static const uint8_t STARTUP[] = {0x80, 0x01, 0, 0, 0, 12, 0, 0, 0x01, 0x44, 0, 0};
static const uint8_t GET_RANDOM[] = {0x80, 0x01, 0, 0, 0, 12, 0, 0, 0x01, 0x7b, 0, 16};
static const uint8_t READ_CLOCK[] = {0x80, 0x01, 0, 0, 0, 10, 0, 0, 0x01, 0x81};

/* TPM2_PCR_Extend of PCR 10, with a SHA-256 digest whose bytes are all 0x5a; TPM2_PCR_Read of PCR
 * 10. */
static const uint8_t EXTEND[] = {
    0x80, 0x02, 0,    0,    0,    65,   0,    0,    0x01, 0x82, 0,    0,    0,    10,   0,    0, 0,
    9,    0x40, 0,    0,    9,    0,    0,    0,    0,    0,    0,    0,    0,    1,    0,    11,
    0x5a, 0x5a, 0x5a, 0x5a, 0x5a, 0x5a, 0x5a, 0x5a, 0x5a, 0x5a, 0x5a, 0x5a, 0x5a, 0x5a, 0x5a,
    0x5a, 0x5a, 0x5a, 0x5a, 0x5a, 0x5a, 0x5a, 0x5a, 0x5a, 0x5a, 0x5a, 0x5a, 0x5a, 0x5a, 0x5a,
    0x5a, 0x5a};
static const uint8_t PCR_READ[] = {0x80, 0x01, 0, 0, 0, 20, 0, 0, 0x01, 0x7e,
                                   0,    0,    0, 1, 0, 11, 3, 0, 4,    0};

/* Ends the program with a message unless the condition holds. */
static inline void must(bool holds, const char *what) {
    if (holds) return;
    fflush(stdout);
    fprintf(stderr, "WRONG: %s\n", what);
    _Exit(1);
}

/* Opens a device that is kept in a folder, with force=never. */
static inline struct kept *opened(const char *folder) {
    struct kept_options options = {.folder = folder, .force = TPMSIM_FORCE_NEVER};
    struct reason reason;
    struct kept *kept = kept_open(&options, &reason);
    must(kept != NULL, kept ? "" : reason.text);
    return kept;
}

/* Executes a command, which must get a response, and returns the size of the response. */
static inline size_t answered_by(struct kept *kept, const uint8_t *buffer, size_t size,
                                 uint8_t response[RESPONSE_BYTES]) {
    tpmsim_answered answered;
    struct reason reason;
    bool is_done = kept_execute(kept, buffer, size, 0, response, &answered, &reason);
    must(is_done, is_done ? "" : reason.text);
    return answered.size;
}

/* Executes a command, which the device must accept. */
static inline size_t accepted(struct kept *kept, const uint8_t *buffer, size_t size,
                              uint8_t response[RESPONSE_BYTES]) {
    size_t all = answered_by(kept, buffer, size, response);
    must(all >= 10 && memcmp(response + 6, "\0\0\0\0", 4) == 0, "the device refused the command");
    return all;
}

static inline void start(struct kept *kept) {
    uint8_t response[RESPONSE_BYTES];
    accepted(kept, STARTUP, sizeof STARTUP, response);
}

static inline void extend(struct kept *kept) {
    uint8_t response[RESPONSE_BYTES];
    accepted(kept, EXTEND, sizeof EXTEND, response);
}

/* The expected values of the PCR after 0, 1, 2 .. extends, from a file that another program
 * wrote. */
struct values {
    uint8_t *bytes;
    size_t count;
};

static inline uint8_t *bytes_of(const char *path, size_t *size) {
    FILE *file = fopen(path, "rb");
    must(file && fseek(file, 0, SEEK_END) == 0, "a file is not there");
    *size = (size_t)ftell(file);
    rewind(file);
    uint8_t *bytes = malloc(*size + 1);
    must(bytes && fread(bytes, 1, *size, file) == *size, "a file is not read");
    fclose(file);
    return bytes;
}

static inline struct values values_of(const char *path) {
    struct values values;
    values.bytes = bytes_of(path, &values.count);
    values.count /= DIGEST_BYTES;
    return values;
}

/* Returns how often the PCR was extended, according to its value; -1 if the value is not an
 * expected one. */
static inline long extends_of(struct kept *kept, const struct values *values) {
    uint8_t response[RESPONSE_BYTES];
    size_t size = accepted(kept, PCR_READ, sizeof PCR_READ, response);
    for (size_t i = 0; i < values->count; i++)
        if (memcmp(values->bytes + i * DIGEST_BYTES, response + size - DIGEST_BYTES,
                   DIGEST_BYTES) == 0)
            return (long)i;
    return -1;
}

/* Returns the path of a file in a folder. */
static inline const char *path_in(const char *folder, const char *name, char room[512]) {
    must(snprintf(room, 512, "%s/%s", folder, name) < 512, "a path is too long");
    return room;
}

/* Overwrites a file in place with exactly these bytes. */
static inline void put_bytes(const char *path, const uint8_t *bytes, size_t size) {
    int file = open(path, O_WRONLY | O_CREAT, 0600);
    must(file >= 0 && pwrite(file, bytes, size, 0) == (ssize_t)size &&
             ftruncate(file, (off_t)size) == 0 && close(file) == 0,
         "a file is not written");
}

#endif
