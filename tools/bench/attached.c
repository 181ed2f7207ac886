/* Executes one command COUNT times through libtss2's loader, and prints the minimum and the median
 * time in microseconds. The usage is `attached TCTI COMMAND COUNT`. The command `open` loads and
 * unloads the TCTI instead. */
#define _GNU_SOURCE
#include <stdio.h>
#include <stdlib.h>
#include <string.h>
#include <time.h>
#include <tss2/tss2_tctildr.h>

static const char STARTUP[] = "80010000000c000001440000";
static const char DEFINE[] = "80020000002d0000012a40000001000000094000000900000000000000"
                             "000e01500020000b0006000600000040";

/* The commands. Each has a name, its first bytes in hex, the size of the filling after these bytes,
 * and its last bytes in hex. The first byte of the filling differs each time. */
static const struct {
    const char *name, *front;
    size_t filling;
    const char *behind;
} COMMANDS[] = {
    {"getrandom", "80010000000c0000017b0010", 0, ""},
    {"pcrread", "8001000000140000017e00000001000b03000400", 0, ""},
    {"extend", "80020000004100000182000000100000000940000009000000000000000001000b", 32, ""},
    {"nvwrite", "800200000063000001374000000101500020000000094000000900000000000040", 64, "0000"},
};

static void must(int holds, const char *what) {
    if (holds) return;
    fprintf(stderr, "attached: %s\n", what);
    exit(1);
}

static double now(void) {
    struct timespec time;
    clock_gettime(CLOCK_MONOTONIC, &time);
    return (double)time.tv_sec * 1e6 + (double)time.tv_nsec / 1e3;
}

static size_t read_hex(const char *text, uint8_t *buffer) {
    size_t size = strlen(text) / 2;
    unsigned byte = 0;
    for (size_t i = 0; i < size; i++) {
        must(sscanf(text + 2 * i, "%2x", &byte) == 1, "hex");
        buffer[i] = (uint8_t)byte;
    }
    return size;
}

/* Writes a command to `buffer`, and the offset of its filling to `filling`. Without a filling, the
   offset is the end of the command. Returns the command's size. */
static size_t command_of(const char *name, uint8_t *buffer, size_t *filling) {
    for (size_t i = 0; i < sizeof COMMANDS / sizeof *COMMANDS; i++) {
        if (strcmp(name, COMMANDS[i].name) != 0) continue;
        size_t size = read_hex(COMMANDS[i].front, buffer);
        *filling = size;
        memset(buffer + size, 0x5a, COMMANDS[i].filling);
        size += COMMANDS[i].filling;
        return size + read_hex(COMMANDS[i].behind, buffer + size);
    }
    must(0, "there is no such command");
    return 0;
}

/* Executes a command, and returns its response code. */
static unsigned execute(TSS2_TCTI_CONTEXT *device, const uint8_t *command, size_t size) {
    uint8_t response[4096];
    size_t received = sizeof response;
    must(Tss2_Tcti_Transmit(device, size, command) == TSS2_RC_SUCCESS, "transmit");
    must(Tss2_Tcti_Receive(device, &received, response, TSS2_TCTI_TIMEOUT_BLOCK) == TSS2_RC_SUCCESS,
         "receive");
    return (unsigned)response[8] << 8 | response[9];
}

static int compare(const void *one, const void *other) {
    double difference = *(const double *)one - *(const double *)other;
    return (difference > 0) - (difference < 0);
}

static void tell(double *times, size_t count) {
    qsort(times, count, sizeof *times, compare);
    printf("%.2f %.2f\n", times[0], times[count / 2]);
}

static TSS2_TCTI_CONTEXT *opened(const char *transport) {
    TSS2_TCTI_CONTEXT *device = NULL;
    must(Tss2_TctiLdr_Initialize(transport, &device) == TSS2_RC_SUCCESS, "the transport");
    return device;
}

static void measure_opening(const char *transport, double *times, size_t count) {
    for (size_t i = 0; i < count; i++) {
        double before = now();
        TSS2_TCTI_CONTEXT *device = opened(transport);
        Tss2_TctiLdr_Finalize(&device);
        times[i] = now() - before;
    }
}

static void measure(const char *transport, const char *name, double *times, size_t count) {
    uint8_t command[4096];
    TSS2_TCTI_CONTEXT *device = opened(transport);
    execute(device, command, read_hex(STARTUP, command));
    execute(device, command, read_hex(DEFINE, command));
    size_t filling, size = command_of(name, command, &filling);
    for (size_t i = 0; i < count; i++) {
        if (filling < size) command[filling]++;
        double before = now();
        must(execute(device, command, size) == 0, "the device refused the command");
        times[i] = now() - before;
    }
    Tss2_TctiLdr_Finalize(&device);
}

int main(int words, char **word) {
    must(words == 4, "usage: attached TCTI COMMAND COUNT");
    size_t count = (size_t)atol(word[3]);
    double *times = calloc(count, sizeof *times);
    must(times && count > 0, "a count");
    if (strcmp(word[2], "open") == 0) measure_opening(word[1], times, count);
    else measure(word[1], word[2], times, count);
    tell(times, count);
    free(times);
    return 0;
}
