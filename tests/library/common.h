/* Functions that the library's test programs share, for example to decode hex, to execute commands,
 * and to end the program with a message. */
#ifndef COMMON_H
#define COMMON_H
#include "tpmsim.h"
#include <stdio.h>
#include <stdlib.h>
#include <string.h>

/* FILLED is the byte with which a buffer is filled before a call, to show what the call writes. */
enum { RANDOM_BYTES = 256, RESPONSE_BYTES = 4096, FILLED = 0xa5 };

/* TPM2_Startup(CLEAR), and TPM2_GetRandom of sixteen bytes. */
static const uint8_t STARTUP[] = {0x80, 0x01, 0, 0, 0, 12, 0, 0, 0x01, 0x44, 0, 0};
static const uint8_t GET_RANDOM[] = {0x80, 0x01, 0, 0, 0, 12, 0, 0, 0x01, 0x7b, 0, 16};

/* Ends the program with a message unless the condition holds. */
static inline void must(int holds, const char *what) {
    if (holds) return;
    fflush(stdout);
    fprintf(stderr, "WRONG: %s\n", what);
    exit(1);
}

/* Allocates memory. If that fails, ends the program. */
static inline void *taken(size_t size) {
    void *memory = malloc(size ? size : 1);
    must(memory != NULL, "there is no memory");
    return memory;
}

/* Returns whether a buffer still contains only the filler: the first byte is FILLED, and each byte
   equals the next one. */
static inline int is_filled(const uint8_t *room, size_t size) {
    return size == 0 || (room[0] == FILLED && memcmp(room, room + 1, size - 1) == 0);
}

/* Writes the random bytes for a test: bytes that count up from `first`. */
static inline void count_up(uint8_t random[RANDOM_BYTES], uint8_t first) {
    for (int i = 0; i < RANDOM_BYTES; i++) random[i] = (uint8_t)(first + i);
}

/* Returns the code of a response, which follows the tag of two bytes and the size of four bytes. */
static inline uint32_t code_of(const uint8_t *response) {
    return (uint32_t)response[6] << 24 | (uint32_t)response[7] << 16 | (uint32_t)response[8] << 8 |
           response[9];
}

static inline void put_hex(const uint8_t *bytes, size_t size) {
    char *digits = taken(2 * size);
    for (size_t i = 0; i < size; i++) {
        digits[2 * i] = "0123456789abcdef"[bytes[i] >> 4];
        digits[2 * i + 1] = "0123456789abcdef"[bytes[i] & 15];
    }
    fwrite(digits, 2, size, stdout);
    free(digits);
}

static inline uint8_t digit_of(char digit) {
    if ('0' <= digit && digit <= '9') return (uint8_t)(digit - '0');
    must('a' <= digit && digit <= 'f', "a digit is none of lower-case hex");
    return (uint8_t)(digit - 'a' + 10);
}

/* Decodes hex, and returns the number of decoded bytes. */
static inline size_t hex_bytes(const char *hex, uint8_t *bytes) {
    size_t size = strlen(hex) / 2;
    for (size_t i = 0; i < size; i++)
        bytes[i] = (uint8_t)(digit_of(hex[2 * i]) << 4 | digit_of(hex[2 * i + 1]));
    return size;
}

/* Executes a command at locality 0, with no elapsed time. The call must succeed. */
static inline struct tpmsim_answered answered_by(struct tpmsim *device, const uint8_t *buffer,
                                                 size_t size, uint8_t *response) {
    struct tpmsim_answered answered;
    uint8_t random[RANDOM_BYTES];
    count_up(random, 0);
    must(tpmsim_execute(device, buffer, size, 0, 0, random, response, &answered) == TPMSIM_DONE,
         "a command is not executed");
    return answered;
}

/* Makes a device and starts it. */
static inline void start_new(struct tpmsim *device, uint8_t first) {
    uint8_t random[RANDOM_BYTES], response[RESPONSE_BYTES];
    count_up(random, first);
    must(tpmsim_manufacture(device, random) == TPMSIM_DONE, "a device is not made");
    must(answered_by(device, STARTUP, sizeof STARTUP, response).check == 0, "it does not start");
}
#endif
