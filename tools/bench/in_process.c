/* Executes commands on a device of libtpms and on devices of libtpmsim in one process, for the
 * measurements of in_process.py. It reads lines:
 *
 *     use DEVICE                      selects the device of the following lines
 *     cmd HEX                         prints the response
 *     power                           power-cycles the device
 *     time COUNT HEX..                executes these commands in turn, COUNT times
 *     layered COUNT HEX..             does the same with the completing layer of libtpmsim
 *     session COUNT HANDLE NONCE      executes TPM2_PCR_Reset COUNT times with this HMAC session
 *     save|open|new|cycle|snapshot|restore COUNT
 *                                     does that COUNT times with a device of libtpmsim
 *     volatile COUNT                  makes libtpms write its volatile state COUNT times
 *     sizes                           prints the bytes of an image, of a state text, and of the
 *                                     volatile state of libtpms
 *
 * DEVICE is `tpms`, the device of libtpms; `sim`, the device of libtpmsim, whose random bytes are
 * replaced after a command drew them; or `still`, the same device with constant random bytes. The
 * lines from `time` to `volatile` print the elapsed nanoseconds. If a command is refused, the
 * program ends. */
#define _GNU_SOURCE
#include "tpmsim.h"
#include <libtpms/tpm_error.h>
#include <libtpms/tpm_library.h>
#include <libtpms/tpm_memory.h>
#include <libtpms/tpm_nvfilename.h>
#include <openssl/hmac.h>
#include <openssl/sha.h>
#include <stdio.h>
#include <stdlib.h>
#include <string.h>
#include <sys/random.h>
#include <time.h>

enum { RANDOM_BYTES = 256, RESPONSE_BYTES = 4096, MOST_BUFFERS = 8, IMAGE_BYTES = 1 << 16 };
enum target { TPMS, SIM, STILL } target;

static void fail(const char *what) {
    fprintf(stderr, "in_process: %s\n", what);
    exit(1);
}

static uint64_t now(void) {
    struct timespec told;
    clock_gettime(CLOCK_MONOTONIC, &told);
    return (uint64_t)told.tv_sec * 1000000000u + (uint64_t)told.tv_nsec;
}

/* The states that libtpms stores. They are kept in memory, each with its name. */
static struct state {
    char name[32];
    unsigned char *bytes;
    uint32_t size;
} states[4];

static struct state *state_of(const char *name) {
    for (struct state *it = states; it < states + 4; it++)
        if (!it->name[0] || strcmp(it->name, name) == 0) return it;
    fail("libtpms keeps too many states");
    return NULL;
}

static TPM_RESULT nothing(void) { return TPM_SUCCESS; }

static TPM_RESULT load(unsigned char **bytes, uint32_t *size, uint32_t number, const char *name) {
    (void)number;
    struct state *state = state_of(name);
    if (!state->bytes) return TPM_RETRY;
    if (TPM_Malloc(bytes, state->size) != TPM_SUCCESS) return TPM_SIZE;
    memcpy(*bytes, state->bytes, state->size);
    *size = state->size;
    return TPM_SUCCESS;
}

static TPM_RESULT store(const unsigned char *bytes, uint32_t size, uint32_t number,
                        const char *name) {
    (void)number;
    struct state *state = state_of(name);
    if (state->size != size) state->bytes = realloc(state->bytes, size);
    if (!state->bytes) return TPM_SIZE;
    snprintf(state->name, sizeof state->name, "%s", name);
    memcpy(state->bytes, bytes, size);
    state->size = size;
    return TPM_SUCCESS;
}

static TPM_RESULT forget(uint32_t number, const char *name, TPM_BOOL must_exist) {
    (void)number;
    (void)must_exist;
    struct state *state = state_of(name);
    free(state->bytes);
    state->bytes = NULL;
    state->size = 0;
    return TPM_SUCCESS;
}

static TPM_RESULT locality(TPM_MODIFIER_INDICATOR *told, uint32_t number) {
    (void)number;
    *told = 0;
    return TPM_SUCCESS;
}

static TPM_RESULT presence(TPM_BOOL *told, uint32_t number) {
    (void)number;
    *told = FALSE;
    return TPM_SUCCESS;
}

static void start_libtpms(void) {
    static struct libtpms_callbacks callbacks = {
        .sizeOfStruct = sizeof callbacks,
        .tpm_nvram_init = nothing,
        .tpm_nvram_loaddata = load,
        .tpm_nvram_storedata = store,
        .tpm_nvram_deletename = forget,
        .tpm_io_init = nothing,
        .tpm_io_getlocality = locality,
        .tpm_io_getphysicalpresence = presence,
    };
    if (TPMLIB_ChooseTPMVersion(TPMLIB_TPM_VERSION_2) != TPM_SUCCESS ||
        TPMLIB_RegisterCallbacks(&callbacks) != TPM_SUCCESS || TPMLIB_MainInit() != TPM_SUCCESS)
        fail("libtpms does not start");
}

/* The device of libtpmsim, and buffers for the arguments of its calls. */
static struct tpmsim device;
static uint8_t random_bytes[RANDOM_BYTES], room[RESPONSE_BYTES];
static uint64_t last_ms;

/* Whether commands also go through the completing layer of libtpmsim. */
static int is_layered;

static void renew(size_t count) {
    if (getrandom(random_bytes, count, 0) != (ssize_t)count) fail("there are no random bytes");
}

/* The latest response. */
static const unsigned char *response;
static uint32_t response_size;

/* Executes a command with libtpms. At the first use of an algorithm libtpms runs a self-test, and
 * the command must be sent again. */
static void execute_by_libtpms(unsigned char *buffer, uint32_t size) {
    static unsigned char *kept;
    static uint32_t kept_room;
    do {
        if (TPMLIB_Process(&kept, &response_size, &kept_room, buffer, size) != TPM_SUCCESS)
            fail("libtpms does not answer");
        response = kept;
    } while (response_size >= 10 && memcmp(response + 6, "\0\0\x09\x22", 4) == 0);
}

static void execute(unsigned char *buffer, uint32_t size) {
    if (target == TPMS) {
        execute_by_libtpms(buffer, size);
        return;
    }
    struct tpmsim_answered answered;
    uint64_t ms = now() / 1000000;
    uint8_t told = (is_layered ? tpmsim_complete : tpmsim_execute)(
        &device, buffer, size, 0, (uint32_t)(ms - last_ms), random_bytes, room, &answered);
    if (told != TPMSIM_DONE) fail("libtpmsim does not execute");
    if (target == SIM && answered.drawn) renew(answered.drawn);
    last_ms = ms;
    response = room;
    response_size = (uint32_t)answered.size;
}

static void check_success(void) {
    if (response_size >= 10 && memcmp(response + 6, "\0\0\0\0", 4) == 0) return;
    fprintf(stderr, "device %d answers %02x%02x\n", (int)target, response[8], response[9]);
    fail("a command is refused");
}

static uint32_t read_hex(const char *hex, unsigned char *bytes) {
    uint32_t size = 0;
    for (unsigned byte; sscanf(hex, "%2x", &byte) == 1; hex += 2) bytes[size++] = (uint8_t)byte;
    return size;
}

static void print_response(void) {
    for (uint32_t i = 0; i < response_size; i++) printf("%02x", response[i]);
    putchar('\n');
}

static void time_commands(char *words) {
    static unsigned char buffers[MOST_BUFFERS][RESPONSE_BYTES];
    uint32_t sizes[MOST_BUFFERS], count = 0;
    char *rest, *word = strtok_r(words, " ", &rest);
    long times = atol(word);
    while ((word = strtok_r(NULL, " ", &rest)) && count < MOST_BUFFERS) {
        sizes[count] = read_hex(word, buffers[count]);
        count++;
    }
    uint64_t begun = now();
    for (long i = 0; i < times; i++)
        for (uint32_t it = 0; it < count; it++) {
            execute(buffers[it], sizes[it]);
            check_success();
        }
    printf("%llu\n", (unsigned long long)(now() - begun));
}

/* TPM2_PCR_Reset of PCR 16, authorized by an HMAC session with an empty key and nonces of 16 bytes.
 * The time in which the caller computes its HMAC is not counted. */
enum { RESET_BYTES = 75, NONCE = 16, CALLER_NONCE_AT = 24, HMAC_AT = 43, TPM_NONCE_AT = 16 };

static void authorize(unsigned char *buffer, const unsigned char *tpm_nonce) {
    unsigned char text[65];
    SHA256((const unsigned char *)"\0\0\1\x3d\0\0\0\x10", 8, text);
    memcpy(text + 32, buffer + CALLER_NONCE_AT, NONCE);
    memcpy(text + 48, tpm_nonce, NONCE);
    text[64] = 1;
    HMAC(EVP_sha256(), "", 0, text, sizeof text, buffer + HMAC_AT, NULL);
}

static void time_session(char *words) {
    unsigned char buffer[RESET_BYTES] = {0x80, 2, 0, 0, 0,  RESET_BYTES, 0, 0, 1,
                                         0x3d, 0, 0, 0, 16, 0,           0, 0, 57};
    char *rest, *word = strtok_r(words, " ", &rest);
    long times = atol(word);
    unsigned char tpm_nonce[NONCE];
    read_hex(strtok_r(NULL, " ", &rest), buffer + 18);
    read_hex(strtok_r(NULL, " ", &rest), tpm_nonce);
    buffer[23] = NONCE;
    buffer[40] = 1;
    buffer[42] = 32;
    uint64_t passed = 0;
    for (long i = 0; i < times; i++) {
        memcpy(buffer + CALLER_NONCE_AT, &i, sizeof i);
        authorize(buffer, tpm_nonce);
        uint64_t begun = now();
        execute(buffer, RESET_BYTES);
        passed += now() - begun;
        check_success();
        memcpy(tpm_nonce, response + TPM_NONCE_AT, NONCE);
    }
    printf("%llu\n", (unsigned long long)passed);
}

static void cycle_power(void) {
    if (target != TPMS) {
        tpmsim_power_cycle(&device);
        return;
    }
    TPMLIB_Terminate();
    if (TPMLIB_MainInit() != TPM_SUCCESS) fail("libtpms does not start again");
}

/* Times a call of libtpmsim that is not a command. */
static void time_call(const char *call, long times) {
    static uint8_t image[IMAGE_BYTES], text[TPMSIM_STATE_SIZE];
    struct tpmsim other = {0};
    size_t size = tpmsim_save(&device, image, IMAGE_BYTES);
    size_t text_size = tpmsim_snapshot(&device, text, sizeof text);
    uint64_t begun = now();
    for (long i = 0; i < times; i++) {
        uint8_t told = 0;
        if (strcmp(call, "save") == 0)
            size = tpmsim_save(&device, image, IMAGE_BYTES);
        else if (strcmp(call, "open") == 0)
            told = tpmsim_open(&other, image, size);
        else if (strcmp(call, "new") == 0)
            told = tpmsim_manufacture(&other, random_bytes);
        else if (strcmp(call, "snapshot") == 0)
            text_size = tpmsim_snapshot(&device, text, sizeof text);
        else if (strcmp(call, "restore") == 0)
            told = tpmsim_restore(&other, text, text_size);
        else
            told = i ? tpmsim_power_cycle(&other) : tpmsim_open(&other, image, size);
        if (told != TPMSIM_DONE || size > IMAGE_BYTES) fail("a call is refused");
    }
    printf("%llu\n", (unsigned long long)(now() - begun));
    tpmsim_free(&other);
}

/* Makes libtpms write its volatile state, and returns its size in bytes. */
static uint32_t store_volatile(void) {
    unsigned char *state = NULL;
    uint32_t size = 0;
    if (TPMLIB_VolatileAll_Store(&state, &size) != TPM_SUCCESS) fail("libtpms stores nothing");
    TPM_Free(state);
    return size;
}

static void time_volatile(long times) {
    uint64_t begun = now();
    for (long i = 0; i < times; i++) store_volatile();
    printf("%llu\n", (unsigned long long)(now() - begun));
}

static void print_sizes(void) {
    printf("%zu %zu %u\n", tpmsim_save(&device, room, 0), tpmsim_snapshot(&device, room, 0),
           (unsigned)store_volatile());
}

static void follow(char *line) {
    static unsigned char buffer[RESPONSE_BYTES];
    char *rest = strchr(line, ' ');
    if (rest) *rest++ = '\0';
    if (strcmp(line, "use") == 0)
        target = strcmp(rest, "tpms") == 0 ? TPMS : strcmp(rest, "sim") == 0 ? SIM : STILL;
    else if (strcmp(line, "cmd") == 0) {
        execute(buffer, read_hex(rest, buffer));
        print_response();
    } else if (strcmp(line, "power") == 0)
        cycle_power();
    else if (strcmp(line, "time") == 0)
        time_commands(rest);
    else if (strcmp(line, "layered") == 0) {
        is_layered = 1;
        time_commands(rest);
        is_layered = 0;
    } else if (strcmp(line, "session") == 0)
        time_session(rest);
    else if (strcmp(line, "volatile") == 0)
        time_volatile(atol(rest));
    else if (strcmp(line, "sizes") == 0)
        print_sizes();
    else
        time_call(line, atol(rest));
    fflush(stdout);
}

int main(void) {
    char *line = NULL;
    size_t line_room = 0;
    start_libtpms();
    renew(RANDOM_BYTES);
    if (tpmsim_manufacture(&device, random_bytes) != TPMSIM_DONE) fail("no device is made");
    renew(RANDOM_BYTES);
    last_ms = now() / 1000000;
    while (getline(&line, &line_room, stdin) >= 0) {
        line[strcspn(line, "\n")] = '\0';
        follow(line);
    }
    free(line);
    tpmsim_free(&device);
    TPMLIB_Terminate();
    return 0;
}
