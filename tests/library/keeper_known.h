/* The expected responses of a device in a folder. They show how many commands it has executed. */
#ifndef KEEPER_KNOWN_H
#define KEEPER_KNOWN_H
#include "keeper_host.h"

/* FAR is a size limit that no journal here reaches. EXTENDS is the maximum number of EXTEND
 * commands. */
enum { FAR = 1 << 20, EXTENDS = 200 };

/* TPM2_PCR_Extend of PCR 16 with a SHA-256 digest of zeros and a password, and TPM2_PCR_Read of PCR
 * 16. */
static const uint8_t EXTEND[65] = {0x80, 2,    0, 0, 0, 65, 0, 0, 1, 0x82, 0, 0, 0, 16, 0, 0,   0,
                                   9,    0x40, 0, 0, 9, 0,  0, 0, 0, 0,    0, 0, 0, 1,  0, 0x0b};
static const uint8_t READ[20] = {0x80, 1, 0, 0, 0, 20,   0, 0, 1, 0x7e,
                                 0,    0, 0, 1, 0, 0x0b, 3, 0, 0, 1};

/* known[N] is the response to READ after N EXTEND commands, from a host that is never killed. */
static uint8_t known[EXTENDS][RESPONSE_BYTES];
static size_t known_size[EXTENDS];

static void is_done(uint8_t fault, const char *what) {
    if (fault == TPMSIM_FAULT_NONE) return;
    printf("fault %u\n", fault);
    must(0, what);
}

static void executes(host *it, const uint8_t *command, size_t size, uint32_t code) {
    is_done(host_executes(it, command, size), "a command is not executed");
    must(it->response_size >= 10 && code_of(it->response) == code, "another response code");
}

static void start(host *it) {
    is_done(host_begins(it), "no device begins");
    executes(it, STARTUP, sizeof STARTUP, 0);
    executes(it, GET_RANDOM, sizeof GET_RANDOM, 0);
}

/* Stores the responses of a host that has its own folder and is never killed. */
static void learn(host *it) {
    start(it);
    for (int count = 0; count < EXTENDS; count++) {
        executes(it, READ, sizeof READ, 0);
        memcpy(known[count], it->response, it->response_size);
        known_size[count] = it->response_size;
        executes(it, EXTEND, sizeof EXTEND, 0);
    }
    tpmsim_keeper_free(&it->keeper);
    must(memcmp(known[0], known[1], known_size[0]) != 0, "EXTEND changes nothing");
}

static int is_after(const host *it, int count) {
    return it->response_size == known_size[count] &&
           memcmp(it->response, known[count], it->response_size) == 0;
}

/* Returns the number of EXTENDs that the device has executed: `count` or `count + 1`. */
static int count_of(host *it, int count) {
    executes(it, READ, sizeof READ, 0);
    if (is_after(it, count)) return count;
    must(is_after(it, count + 1), "the device is not the one that was answered for");
    return count + 1;
}
#endif
